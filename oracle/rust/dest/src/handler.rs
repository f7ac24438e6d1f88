// What the lines cut out of dest.rs stand on: the fields they use, and nothing of their behaviour.
use spacepackets::cfdp::pdu::ack::{AckPdu, TransactionStatus};
use spacepackets::cfdp::pdu::eof::EofPdu;
use spacepackets::cfdp::pdu::file_data::FileDataPdu;
use spacepackets::cfdp::pdu::nak::{NakPduCreator, NakPduCreatorWithReservedSeqReqsBuf};
use spacepackets::cfdp::pdu::{CommonPduConfig, FileDirectiveType, PduError, PduHeader};
use spacepackets::cfdp::{ConditionCode, LargeFileFlag, PduType, TransmissionMode};
use std::cell::{Cell, RefCell};
use store::lost_segments::{LostSegmentError, LostSegmentStore, LostSegmentsList};

#[derive(Debug)]
pub enum DestError {
    FirstPacketNotMetadata,
    UnexpectedLargeFileSize,
    InvalidRemoteConfig(#[allow(dead_code)] RemoteConfig),
    #[allow(dead_code)]
    WrongStepForPdu {
        pdu_type: PduType,
        file_directive_type: Option<FileDirectiveType>,
        step: TransactionStep,
    },
    LostSegmentError(LostSegmentError),
    Pdu(#[allow(dead_code)] PduError),
}

impl From<LostSegmentError> for DestError {
    fn from(e: LostSegmentError) -> Self {
        DestError::LostSegmentError(e)
    }
}

impl From<PduError> for DestError {
    fn from(e: PduError) -> Self {
        DestError::Pdu(e)
    }
}

#[derive(Debug, Clone, Copy)]
pub struct RemoteConfig {
    pub immediate_nak_mode: bool,
    pub max_packet_len: usize,
    pub nak_timer_interval: u32,
    pub nak_timer_expiration_limit: u32,
}

pub struct Timer;
impl Timer {
    fn create_countdown(&self, _: TimerContext) -> Timer {
        Timer
    }
    fn has_expired(&self) -> bool {
        true
    }
    fn reset(&mut self) {}
}

pub enum TimerContext {
    NakActivity {
        #[allow(dead_code)]
        expiry_time: u32,
    },
}

#[derive(Debug, Clone, Copy, PartialEq)]
pub enum TransactionStep {
    Idle,
    WaitingForMetadata,
    ReceivingFileDataPdus,
    TransferCompletion,
}

pub enum DeliveryCode {
    Incomplete,
    Complete,
}

#[derive(Debug, Clone, Copy, PartialEq)]
pub enum FaultHandlerCode {
    NoticeOfCancellation,
    #[allow(dead_code)]
    NoticeOfSuspension,
    IgnoreError,
    AbandonTransaction,
}

#[derive(Clone, Copy, PartialEq)]
pub enum CompletionDisposition {
    Completed,
    Cancelled,
}

pub struct FinishedParams {
    pub condition_code: Cell<ConditionCode>,
    pub delivery_code: Cell<DeliveryCode>,
}

pub struct TransactionId;

pub trait CfdpUser {
    fn eof_recvd_indication(&mut self, id: &TransactionId);
}

struct User;
impl CfdpUser for User {
    fn eof_recvd_indication(&mut self, _: &TransactionId) {}
}

pub struct IndicationConfig {
    pub eof_recv: bool,
}

pub struct LocalConfig {
    pub indication_cfg: IndicationConfig,
    // What is done on a file size error; the crate's default is to cancel.
    pub on_size_error: FaultHandlerCode,
}

pub struct Sender {
    pub sent: RefCell<Vec<Vec<u8>>>,
}

impl Sender {
    // The NAK PDUs alone are kept.
    fn send_file_directive_pdu(&self, directive: FileDirectiveType, octets: &[u8]) -> Result<(), DestError> {
        if directive == FileDirectiveType::NakPdu {
            self.sent.borrow_mut().push(octets.to_vec());
        }
        Ok(())
    }
}

pub struct TransactionParams {
    pub pdu_conf: CommonPduConfig,
    pub progress: u64,
    pub file_size: u64,
    pub acked_params: Option<AcknowledgedModeParams>,
    pub remote_cfg: Option<RemoteConfig>,
    pub deferred_procedure_timer: Option<Timer>,
    pub finished_params: FinishedParams,
    pub checksum: u32,
    pub transaction_id: Option<TransactionId>,
    pub completion_disposition: Cell<CompletionDisposition>,
}

impl TransactionParams {
    fn transmission_mode(&self) -> TransmissionMode {
        self.pdu_conf.trans_mode
    }
}

pub struct Handler {
    pub local_cfg: LocalConfig,
    pub step: Cell<TransactionStep>,
    pub faults: RefCell<Vec<ConditionCode>>,
    pub transaction_params: TransactionParams,
    pub lost_segment_tracker: LostSegmentsList,
    pub pdu_and_cksum_buffer: RefCell<[u8; 4096]>,
    pub pdu_sender: Sender,
    pub check_timer_creator: Timer,
}

impl Handler {
    // The buffer begins with 0x5a in every octet, so that an octet that is never written shows.
    pub fn new(pairs: &[(u64, u64)], capacity: usize, flag: LargeFileFlag, remote_cfg: RemoteConfig) -> Self {
        seed::plant(pairs);
        let pdu_conf = CommonPduConfig {
            source: 1,
            number: 7,
            destination: 2,
            trans_mode: TransmissionMode::Acknowledged,
            file_flag: flag,
        };
        Handler {
            local_cfg: LocalConfig {
                indication_cfg: IndicationConfig { eof_recv: true },
                on_size_error: FaultHandlerCode::NoticeOfCancellation,
            },
            step: Cell::new(TransactionStep::Idle),
            faults: RefCell::new(Vec::new()),
            transaction_params: TransactionParams {
                pdu_conf,
                progress: 0,
                file_size: 0,
                acked_params: None,
                remote_cfg: Some(remote_cfg),
                deferred_procedure_timer: None,
                finished_params: FinishedParams {
                    condition_code: Cell::new(ConditionCode::NoError),
                    delivery_code: Cell::new(DeliveryCode::Incomplete),
                },
                checksum: 0,
                transaction_id: Some(TransactionId),
                completion_disposition: Cell::new(CompletionDisposition::Completed),
            },
            lost_segment_tracker: LostSegmentsList::new(Some(capacity)),
            pdu_and_cksum_buffer: RefCell::new([0x5a; 4096]),
            pdu_sender: Sender { sent: RefCell::new(Vec::new()) },
            check_timer_creator: Timer,
        }
    }

    pub fn known(&mut self) {
        self.transaction_params.acked_params = Some(self.acked(false));
        self.set_step(TransactionStep::ReceivingFileDataPdus);
    }

    pub fn acked(&self, metadata_missing: bool) -> AcknowledgedModeParams {
        AcknowledgedModeParams {
            last_start_offset: self.transaction_params.progress,
            last_end_offset: self.transaction_params.progress,
            metadata_missing,
            nak_activity_counter: 0,
            deferred_procedure_active: false,
        }
    }

    // The metadata PDU's effect on these fields.
    pub fn metadata(&mut self) {
        self.transaction_params.acked_params.as_mut().unwrap().metadata_missing = false;
        self.set_step(TransactionStep::ReceivingFileDataPdus);
    }

    // An EOF PDU without an error.
    pub fn eof(&mut self, file_size: u64) -> Result<u32, DestError> {
        let header = PduHeader::new_for_file_directive(self.transaction_params.pdu_conf, 0);
        self.handle_eof_pdu(&mut User, EofPdu { header, condition_code: ConditionCode::NoError, file_size })
    }

    fn file_data<'a>(&self, offset: u64, data: &'a [u8]) -> FileDataPdu<'a> {
        let header = PduHeader::new_for_file_directive(self.transaction_params.pdu_conf, 0);
        FileDataPdu { header, offset, data }
    }

    // Data while waiting: the first file data PDU of a transaction.
    pub fn notice(&mut self, offset: u64, length: usize) -> Result<u32, DestError> {
        let data = vec![0; length];
        let pdu = self.file_data(offset, &data);
        let sent = self.handle_file_data_without_previous_metadata(&pdu)?;
        self.set_step(TransactionStep::WaitingForMetadata);
        Ok(sent)
    }

    // Data once metadata is known: progress moves first, as in `handle_file_data`.
    pub fn keep(&mut self, offset: u64, length: usize) -> Result<u32, DestError> {
        let data = vec![0; length];
        let pdu = self.file_data(offset, &data);
        let end = offset.wrapping_add(length as u64);
        self.transaction_params.progress = self.transaction_params.progress.max(end);
        self.lost_segment_handling(&pdu)
    }

    pub fn deferred(&mut self) -> Result<u32, DestError> {
        self.deferred_lost_segment_handling()
    }

    pub fn multi(&mut self, segments: usize, max_segments: usize, metadata: bool) -> Result<u32, DestError> {
        self.write_multi_packet_nak_sequence(segments, max_segments, metadata)
    }

    fn first_packet_handling(&mut self, conf: &CommonPduConfig) -> Result<(), DestError> {
        self.transaction_params.pdu_conf = *conf;
        Ok(())
    }

    fn check_for_deferred_lost_segment_completion(&mut self, metadata_missing: bool) -> bool {
        self.lost_segment_tracker.is_empty() && !metadata_missing
    }

    fn declare_fault(&self, condition_code: ConditionCode) -> FaultHandlerCode {
        self.faults.borrow_mut().push(condition_code);
        match condition_code {
            ConditionCode::FileSizeError => self.local_cfg.on_size_error,
            _ => FaultHandlerCode::AbandonTransaction,
        }
    }

    fn abandon_transaction(&mut self) {}

    fn step(&self) -> TransactionStep {
        self.step.get()
    }

    fn set_step(&mut self, step: TransactionStep) {
        self.step.set(step);
    }

    fn transmission_mode(&self) -> Option<TransmissionMode> {
        Some(self.transaction_params.transmission_mode())
    }

    // No EOF PDU here has an error, and no transfer is unacknowledged: these three are not reached.
    fn handle_eof_cancel(&mut self, _: &EofPdu) {
        unreachable!()
    }

    fn checksum_verify(&mut self, _: u64, _: u32) -> bool {
        unreachable!()
    }

    fn start_check_limit_handling(&mut self) {
        unreachable!()
    }
}

include!(concat!(env!("OUT_DIR"), "/cut.rs"));
