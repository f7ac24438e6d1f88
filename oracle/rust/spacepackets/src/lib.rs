// Stand-in for the few names of spacepackets that lost_segments.rs and the lines cut out of dest.rs
// use. The NAK PDU's octets follow the Blue Book, header and 5.2.6; the ACK PDU has none.
pub mod cfdp {
    #[derive(Debug, Clone, Copy, PartialEq, Eq)]
    pub enum LargeFileFlag {
        Normal = 0,
        Large = 1,
    }

    #[derive(Debug, Clone, Copy, PartialEq, Eq)]
    pub enum TransmissionMode {
        Acknowledged = 0,
        Unacknowledged = 1,
    }

    #[derive(Debug, Clone, Copy, PartialEq, Eq)]
    pub enum ConditionCode {
        NoError,
        FileSizeError,
        NakLimitReached,
    }

    #[derive(Debug, Clone, Copy, PartialEq, Eq)]
    pub enum PduType {
        FileDirective = 0,
    }

    pub mod pdu {
        use super::{ConditionCode, LargeFileFlag, TransmissionMode};

        #[derive(Debug)]
        pub struct PduError;

        #[derive(Debug, Clone, Copy, PartialEq, Eq)]
        pub enum FileDirectiveType {
            EofPdu = 4,
            AckPdu = 6,
            NakPdu = 8,
        }

        // Identifiers of one octet each, which is all that is needed here.
        #[derive(Debug, Clone, Copy)]
        pub struct CommonPduConfig {
            pub source: u8,
            pub number: u8,
            pub destination: u8,
            pub trans_mode: TransmissionMode,
            pub file_flag: LargeFileFlag,
        }

        #[derive(Debug, Clone, Copy)]
        pub struct PduHeader {
            conf: CommonPduConfig,
        }

        pub const HEADER: usize = 7;

        impl PduHeader {
            pub fn new_for_file_directive(conf: CommonPduConfig, _data_field_len: u16) -> Self {
                PduHeader { conf }
            }

            pub fn common_pdu_conf(&self) -> &CommonPduConfig {
                &self.conf
            }

            fn write(&self, buf: &mut [u8], data_field_len: usize) {
                buf[0] = 0x28 | self.conf.file_flag as u8;
                buf[1..3].copy_from_slice(&(data_field_len as u16).to_be_bytes());
                buf[3] = 0;
                buf[4] = self.conf.source;
                buf[5] = self.conf.number;
                buf[6] = self.conf.destination;
            }
        }

        pub mod file_data {
            use super::*;

            pub struct FileDataPdu<'a> {
                pub header: PduHeader,
                pub offset: u64,
                pub data: &'a [u8],
            }

            impl<'a> FileDataPdu<'a> {
                pub fn transmission_mode(&self) -> TransmissionMode {
                    self.header.conf.trans_mode
                }
                pub fn pdu_header(&self) -> &PduHeader {
                    &self.header
                }
                pub fn offset(&self) -> u64 {
                    self.offset
                }
                pub fn file_data(&self) -> &'a [u8] {
                    self.data
                }
            }
        }

        pub mod eof {
            use super::*;

            pub struct EofPdu {
                pub header: PduHeader,
                pub condition_code: ConditionCode,
                pub file_size: u64,
            }

            impl EofPdu {
                pub fn pdu_header(&self) -> &PduHeader {
                    &self.header
                }
                pub fn condition_code(&self) -> ConditionCode {
                    self.condition_code
                }
                pub fn file_size(&self) -> u64 {
                    self.file_size
                }
                pub fn file_checksum(&self) -> u32 {
                    0
                }
            }
        }

        pub mod ack {
            use super::*;

            pub enum TransactionStatus {
                Active,
            }

            pub struct AckPdu;

            impl AckPdu {
                pub fn new_for_eof_pdu(_: PduHeader, _: ConditionCode, _: TransactionStatus) -> Self {
                    AckPdu
                }
                pub fn write_to_bytes(&self, _: &mut [u8]) -> Result<usize, PduError> {
                    Ok(0)
                }
            }
        }

        pub mod nak {
            use super::*;

            fn field(header: &PduHeader) -> usize {
                match header.conf.file_flag {
                    LargeFileFlag::Normal => 4,
                    LargeFileFlag::Large => 8,
                }
            }

            fn put(buf: &mut [u8], at: usize, f: usize, n: u64) {
                buf[at..at + f].copy_from_slice(&n.to_be_bytes()[8 - f..]);
            }

            // A NAK PDU whose requests the caller writes into the reserved octets.
            pub struct NakPduCreatorWithReservedSeqReqsBuf<'buf> {
                buf: &'buf mut [u8],
                header: PduHeader,
                num: usize,
            }

            impl<'buf> NakPduCreatorWithReservedSeqReqsBuf<'buf> {
                pub fn calculate_max_segment_requests(
                    max_packet_len: usize,
                    header: &PduHeader,
                ) -> Result<usize, ()> {
                    let f = field(header);
                    let fixed = HEADER + 1 + 2 * f;
                    if max_packet_len < fixed {
                        return Err(());
                    }
                    Ok((max_packet_len - fixed) / (2 * f))
                }

                pub fn new(buf: &'buf mut [u8], header: PduHeader, num: usize) -> Result<Self, PduError> {
                    let len = HEADER + 1 + 2 * field(&header) * (1 + num);
                    if buf.len() < len {
                        return Err(PduError);
                    }
                    Ok(Self { buf: &mut buf[..len], header, num })
                }

                pub fn num_segment_reqs(&self) -> usize {
                    self.num
                }

                pub fn pdu_header(&self) -> &PduHeader {
                    &self.header
                }

                pub fn segment_request_buffer_mut(&mut self) -> &mut [u8] {
                    let at = HEADER + 1 + 2 * field(&self.header);
                    &mut self.buf[at..]
                }

                pub fn finish(self, start: u64, end: u64) -> Result<usize, PduError> {
                    // A scope too large for the field loses its high octets; the real crate may refuse.
                    let f = field(&self.header);
                    let len = self.buf.len();
                    self.header.write(self.buf, len - HEADER);
                    self.buf[HEADER] = 8;
                    put(self.buf, HEADER + 1, f, start);
                    put(self.buf, HEADER + 1 + f, f, end);
                    Ok(len)
                }
            }

            // A NAK PDU over a finished list of requests.
            pub struct NakPduCreator {
                header: PduHeader,
                numbers: Vec<u64>,
            }

            impl NakPduCreator {
                pub fn new_normal_file_size(
                    header: PduHeader,
                    start: u32,
                    end: u32,
                    requests: &[(u32, u32)],
                ) -> Result<Self, PduError> {
                    let mut numbers = vec![start as u64, end as u64];
                    numbers.extend(requests.iter().flat_map(|&(s, e)| [s as u64, e as u64]));
                    Ok(Self { header, numbers })
                }

                pub fn new_large_file_size(
                    header: PduHeader,
                    start: u64,
                    end: u64,
                    requests: &[(u64, u64)],
                ) -> Result<Self, PduError> {
                    let mut numbers = vec![start, end];
                    numbers.extend(requests.iter().flat_map(|&(s, e)| [s, e]));
                    Ok(Self { header, numbers })
                }

                pub fn write_to_bytes(&self, buf: &mut [u8]) -> Result<usize, PduError> {
                    let f = field(&self.header);
                    let len = HEADER + 1 + f * self.numbers.len();
                    self.header.write(buf, len - HEADER);
                    buf[HEADER] = 8;
                    for (i, &n) in self.numbers.iter().enumerate() {
                        put(buf, HEADER + 1 + f * i, f, n);
                    }
                    Ok(len)
                }
            }
        }
    }
}
