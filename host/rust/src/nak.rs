//! One NAK PDU.
use core::iter::FusedIterator;

use crate::{ffi, Identity, Refusal};

/// The large file flag: how long an offset's field is.
#[derive(Clone, Copy, Debug, Default, PartialEq, Eq)]
pub enum FileFlag {
    /// 4 octets.
    #[default]
    Normal,
    /// 8 octets.
    Large,
}

impl FileFlag {
    pub(crate) fn mark(self) -> u64 {
        match self {
            FileFlag::Normal => 0,
            FileFlag::Large => 1,
        }
    }
}

/// Which edition of the Blue Book a link speaks. A packet of one edition is never accepted under the other: that is refusal 15.
#[derive(Clone, Copy, Debug, Default, PartialEq, Eq)]
pub enum Edition {
    /// The version bits are 001.
    #[default]
    Newer,
    /// The version bits are 000, and the bit of the large file flag is reserved: there is no [`FileFlag::Large`].
    Older,
}

impl Edition {
    pub(crate) fn mark(self) -> u64 {
        match self {
            Edition::Newer => 0,
            Edition::Older => 1,
        }
    }
}

/// What a link fixes about the shape of its PDUs; by default the newer edition with offsets of 4 octets and no trailer. A [`FileFlag`]
/// alone is a form of the newer edition, an [`Edition`] alone one with the normal flag, both without a trailer.
///
/// ```
/// # use pusmarke::{Edition, FileFlag, Form};
/// assert_eq!(Form::from(FileFlag::Large), Form { edition: Edition::Newer, file_flag: FileFlag::Large, crc: false });
/// assert_eq!(Form::from(Edition::Older), Form { edition: Edition::Older, file_flag: FileFlag::Normal, crc: false });
/// assert_eq!(Form::from(FileFlag::Normal), Form::default());
/// assert_eq!(Form { crc: true, ..Edition::Older.into() }, Form { edition: Edition::Older, file_flag: FileFlag::Normal, crc: true });
/// ```
#[derive(Clone, Copy, Debug, Default, PartialEq, Eq)]
pub struct Form {
    /// The edition.
    pub edition: Edition,
    /// The large file flag.
    pub file_flag: FileFlag,
    /// The CRC flag: each PDU ends in a trailer of two octets, the CRC of those before it.
    pub crc: bool,
}

impl Form {
    pub(crate) fn marks(self) -> ffi::Form {
        ffi::Form { older: self.edition.mark(), large: self.file_flag.mark(), crc: self.crc.into() }
    }
}

impl From<FileFlag> for Form {
    fn from(file_flag: FileFlag) -> Self {
        Form { file_flag, ..Form::default() }
    }
}

impl From<Edition> for Form {
    fn from(edition: Edition) -> Self {
        Form { edition, ..Form::default() }
    }
}

/// Writes one NAK PDU into a buffer of exactly its length, the trailer counted, and says that length. `requests` is flat, start and end
/// by turns; (0, 0) asks for metadata, at any place, once. Refused: 10, 13, 15 (the older edition with the large flag), 18, 3, 2, 7, 14
/// and 6.
pub fn write_nak(
    identity: Identity,
    form: impl Into<Form>,
    scope: (u64, u64),
    requests: &[u64],
    buf: &mut [u8],
) -> Result<usize, Refusal> {
    let answer = unsafe {
        ffi::pusmarke_write(
            identity,
            form.into().marks(),
            scope.0,
            scope.1,
            requests.as_ptr(),
            requests.len(),
            buf.as_mut_ptr(),
            buf.len(),
        )
    };
    Ok(answer.accepted()?.first as usize)
}

/// A NAK PDU that was read, over the caller's octets. Its requests, (start, end), come one by one, as they stand: it is an iterator.
/// (0, 0) asks for metadata and comes at most once, at any place.
#[derive(Clone, Debug)]
pub struct NakReader<'p> {
    packet: &'p [u8],
    nak: ffi::Nak,
    at: usize,
}

impl<'p> NakReader<'p> {
    /// Reads a packet of that edition, with or without a trailer as its CRC flag says. Refused: 16, 15 (also where it is one of the other
    /// edition), 21 (a wrong trailer), 17, 18, 3, 2 and 14.
    ///
    /// ```
    /// # use pusmarke::{write_nak, Edition, Identity, NakReader, Refusal};
    /// # fn main() -> Result<(), Refusal> {
    /// # let identity = Identity { entity_length: 1, number_length: 1, source: 1, number: 7, destination: 2 };
    /// let mut buf = [0; 24];
    /// write_nak(identity, Edition::Older, (0, 1000), &[100, 200], &mut buf)?;
    /// assert_eq!(NakReader::read(&buf, Edition::Older)?.next(), Some((100, 200)));
    /// assert_eq!(NakReader::read(&buf, Edition::Newer).unwrap_err(), Refusal::BadHeader);
    /// # Ok(())
    /// # }
    /// ```
    pub fn read(packet: &'p [u8], edition: Edition) -> Result<Self, Refusal> {
        let nak = unsafe { ffi::pusmarke_read(packet.as_ptr(), packet.len(), edition.mark()) };
        match Refusal::of(nak.refusal, nak.start, nak.end) {
            None => Ok(NakReader { packet, nak, at: nak.next }),
            Some(refusal) => Err(refusal),
        }
    }

    /// Whose transaction it is about.
    pub fn identity(&self) -> Identity {
        self.nak.identity
    }

    /// The large file flag; normal in every packet of the older edition.
    pub fn file_flag(&self) -> FileFlag {
        if self.nak.large == 0 {
            FileFlag::Normal
        } else {
            FileFlag::Large
        }
    }

    /// Whether it has the CRC flag, and so a trailer, which was right.
    pub fn has_crc(&self) -> bool {
        self.nak.crc != 0
    }

    /// Scope start and scope end.
    pub fn scope(&self) -> (u64, u64) {
        (self.nak.scope_start, self.nak.scope_end)
    }

    /// All requests, as the packet's own octets; the trailer is not among them.
    pub fn request_octets(&self) -> &'p [u8] {
        self.packet.get(self.nak.from..self.nak.to).unwrap_or(&[])
    }
}

impl Iterator for NakReader<'_> {
    type Item = (u64, u64);

    fn next(&mut self) -> Option<(u64, u64)> {
        let step = unsafe { ffi::pusmarke_next(self.packet.as_ptr(), self.packet.len(), self.at) };
        self.at = step.at;
        (step.found != 0).then_some((step.start, step.end))
    }
}

// At the end the place stays.
impl FusedIterator for NakReader<'_> {}
