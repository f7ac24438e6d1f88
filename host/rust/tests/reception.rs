//! Reception, the NAK sequence and the reader: document 01's examples, and a pass until nothing is missing.
use pusmarke::{write_nak, Data, Edition, FileFlag, Identity, NakReader, Reception, Refusal, Width};

const IDENTITY: Identity = Identity { entity_length: 1, number_length: 1, source: 1, number: 7, destination: 2 };

const EXAMPLE: [u8; 32] = [
    0x28, 0x00, 0x19, 0x00, 0x01, 0x07, 0x02, 0x08, 0x00, 0x00, 0x00, 0x00, 0x00, 0x00, 0x03, 0xE8, 0x00, 0x00, 0x00, 0x00, 0x00,
    0x00, 0x00, 0x00, 0x00, 0x00, 0x00, 0x64, 0x00, 0x00, 0x00, 0xC8,
];

#[test]
fn example_packet() {
    let mut buf = [0; 32];
    assert_eq!(write_nak(IDENTITY, FileFlag::Normal, (0, 1000), &[0, 0, 100, 200], &mut buf), Ok(32));
    assert_eq!(buf, EXAMPLE);
    let mut reader = NakReader::read(&EXAMPLE, Edition::Newer).unwrap();
    assert_eq!((reader.identity(), reader.file_flag(), reader.scope()), (IDENTITY, FileFlag::Normal, (0, 1000)));
    assert_eq!(reader.request_octets(), &EXAMPLE[16..]);
    assert_eq!((reader.next(), reader.next(), reader.next(), reader.next()), (Some((0, 0)), Some((100, 200)), None, None));
}

#[test]
fn metadata_last() {
    // The example with its requests the other way round: each keeps its place.
    let mut packet = EXAMPLE;
    packet[16..].rotate_left(8);
    let mut buf = [0; 32];
    assert_eq!(write_nak(IDENTITY, FileFlag::Normal, (0, 1000), &[100, 200, 0, 0], &mut buf), Ok(32));
    assert_eq!(buf, packet);
    let reader = NakReader::read(&packet, Edition::Newer).unwrap();
    assert_eq!((reader.request_octets(), reader.collect::<Vec<_>>()), (&packet[16..], vec![(100, 200), (0, 0)]));
    // A second one is refused, next to the first and apart, and so is another empty request.
    let mut buf = [0; 40];
    for requests in
        [[0, 0, 0, 0, 100, 200], [0, 0, 100, 200, 0, 0], [100, 200, 0, 0, 0, 0], [5, 5, 0, 0, 100, 200], [100, 200, 0, 0, 5, 5]]
    {
        assert_eq!(write_nak(IDENTITY, FileFlag::Normal, (0, 1000), &requests, &mut buf), Err(Refusal::EmptySegment));
        let mut packet = EXAMPLE[..16].to_vec();
        packet[2] += 8;
        packet.extend(requests.iter().flat_map(|n| (*n as u32).to_be_bytes()));
        assert_eq!(NakReader::read(&packet, Edition::Newer).unwrap_err(), Refusal::EmptySegment);
    }
}

#[test]
fn damaged_packets() {
    let with = |at: usize, octet: u8| {
        let mut packet = EXAMPLE;
        packet[at] = octet;
        NakReader::read(&packet, Edition::Newer).map(|_| ()).unwrap_err()
    };
    assert_eq!(with(0, 0x20), Refusal::BadHeader);
    assert_eq!(with(2, 0x18), Refusal::LengthMismatch);
    assert_eq!(with(7, 0x09), Refusal::NotNak);
    assert_eq!(with(8, 0x01), Refusal::ScopeReversed);
    assert_eq!(with(19, 0x01), Refusal::StartLargerThanEnd(1, 0));
    assert_eq!(with(31, 0x64), Refusal::EmptySegment);
    assert_eq!(NakReader::read(&[], Edition::Newer).unwrap_err(), Refusal::LengthMismatch);
}

#[test]
fn events() {
    let mut list = [0; 4];
    let mut reception = Reception::new(&mut list, Width::Wide).unwrap();
    assert_eq!(reception.data(50, 10), Ok(Data::Noticed));
    assert_eq!(reception.segments().collect::<Vec<_>>(), [(0, 60)]);
    assert_eq!((reception.metadata(), reception.metadata()), (Ok(()), Err(Refusal::AlreadyKnown)));
    assert_eq!(reception.data(70, 10), Ok(Data::Kept));
    assert_eq!(reception.segments().collect::<Vec<_>>(), [(0, 70)]);
    assert_eq!((reception.progress(), reception.is_metadata_missing(), reception.width()), (80, false, Width::Wide));
    assert_eq!(reception.data(u64::MAX, 1), Err(Refusal::RangeTooLong));
    assert_eq!(reception.data(0, 0), Err(Refusal::EmptySegment));
}

#[test]
fn end_of_file() {
    let mut list = [0; 4];
    let mut reception = Reception::new(&mut list, Width::Wide).unwrap();
    reception.metadata().unwrap();
    reception.data(0, 100).unwrap();
    assert_eq!((reception.size(), reception.eof(99), reception.size()), (None, Err(Refusal::FileSizeError), None));
    // The tail is missing; the same size again changes nothing, another is refused.
    assert_eq!((reception.eof(300), reception.eof(300), reception.size()), (Ok(()), Ok(()), Some(300)));
    assert_eq!((reception.eof(299), reception.eof(301)), (Err(Refusal::FileSizeError), Err(Refusal::FileSizeError)));
    assert_eq!((reception.segments().collect::<Vec<_>>(), reception.progress()), (vec![(100, 300)], 300));
    assert_eq!(reception.data(299, 2), Err(Refusal::FileSizeError));
    assert_eq!(reception.data(200, 50), Ok(Data::Kept));
    assert_eq!(reception.data(270, 10), Err(Refusal::StoreFull));
    assert_eq!(reception.segments().collect::<Vec<_>>(), [(100, 200), (250, 300)]);
    assert_eq!((reception.data(100, 200), reception.segments().len(), reception.size()), (Ok(Data::Kept), 0, Some(300)));
}

#[test]
fn end_of_file_before_metadata() {
    let mut list = [0; 2];
    let mut reception = Reception::new(&mut list, Width::Narrow).unwrap();
    assert_eq!(reception.eof(1 << 32), Err(Refusal::LargeFileSegmentNotSupported));
    assert_eq!((reception.data(5, 5), reception.eof(20), reception.size()), (Ok(Data::Noticed), Ok(()), Some(20)));
    assert_eq!((reception.data(15, 6), reception.data(15, 5)), (Err(Refusal::FileSizeError), Ok(Data::Noticed)));
    assert_eq!((reception.segments().collect::<Vec<_>>(), reception.is_metadata_missing()), (vec![(0, 20)], true));
    // Both are asked for: the metadata and the whole file.
    let mut buf = [0; 32];
    let sent = reception.nak_sequence(IDENTITY, FileFlag::Normal, 32).write(1, &mut buf).unwrap();
    let asked = NakReader::read(&buf[..sent.octets], Edition::Newer).unwrap();
    assert_eq!((asked.scope(), asked.collect::<Vec<_>>()), ((0, 20), vec![(0, 0), (0, 20)]));
    assert_eq!((reception.metadata(), reception.size()), (Ok(()), Some(20)));
    // Nothing but an empty file without a list.
    let mut none = Reception::new(&mut [], Width::Wide).unwrap();
    assert_eq!((none.eof(1), none.size(), none.eof(0), none.size()), (Err(Refusal::StoreFull), None, Ok(()), Some(0)));
}

#[test]
fn held_before_metadata() {
    let mut list = [0; 4];
    let mut reception = Reception::new(&mut list, Width::Wide).unwrap();
    assert_eq!((reception.held(0, 1), reception.missing_octets()), (Ok(false), Ok(0)));
    // Noticed is not kept: not while metadata is missing, and not because it came afterwards.
    assert_eq!(reception.data(0, 100), Ok(Data::Noticed));
    assert_eq!((reception.held(0, 100), reception.held(99, 100), reception.missing_octets()), (Ok(false), Ok(false), Ok(100)));
    reception.metadata().unwrap();
    assert_eq!((reception.held(0, 100), reception.held(99, 100), reception.missing_octets()), (Ok(false), Ok(false), Ok(100)));
    assert_eq!(reception.data(0, 100), Ok(Data::Kept));
    assert_eq!((reception.held(0, 100), reception.held(0, 101), reception.missing_octets()), (Ok(true), Ok(false), Ok(0)));
}

#[test]
fn held_with_holes() {
    let mut list = [0; 16];
    let mut reception = Reception::new(&mut list, Width::Narrow).unwrap();
    reception.metadata().unwrap();
    for (offset, length) in [(0, 100), (200, 100), (120, 30)] {
        reception.data(offset, length).unwrap();
    }
    // Missing: 100–120 and 150–200. The tail is told later.
    let yes = [(0, 100), (0, 1), (99, 100), (10, 90), (120, 150), (121, 149), (200, 300), (201, 299), (299, 300)];
    let in_holes = [(100, 120), (105, 106), (150, 200), (110, 160)];
    let with_holes = [(99, 101), (119, 121), (120, 151), (119, 150), (90, 125), (120, 200), (90, 210), (0, 300)];
    let past_progress = [(200, 301), (299, 301), (300, 301), (300, 400), (1 << 32, 1 << 33), (0, u64::MAX)];
    let before: Vec<_> = reception.segments().collect();
    for (start, end) in yes {
        assert_eq!(reception.held(start, end), Ok(true), "{start}–{end}");
    }
    for (start, end) in in_holes.into_iter().chain(with_holes).chain(past_progress) {
        assert_eq!(reception.held(start, end), Ok(false), "{start}–{end}");
    }
    for at in [0, 110, 300, u64::MAX] {
        assert_eq!(reception.held(at, at), Err(Refusal::EmptySegment));
    }
    for (start, end) in [(1, 0), (150, 120), (u64::MAX, 0)] {
        assert_eq!(reception.held(start, end), Err(Refusal::StartLargerThanEnd(start, end)));
    }
    assert_eq!(reception.missing_octets(), Ok(70));
    assert_eq!((reception.segments().collect::<Vec<_>>(), reception.progress(), reception.size()), (before, 300, None));
    // The tail counts once it is told.
    reception.eof(400).unwrap();
    assert_eq!((reception.missing_octets(), reception.held(200, 300), reception.held(200, 400)), (Ok(170), Ok(true), Ok(false)));
    // Data lowers what is missing by just the overlap: of 90–210 the 70 octets of two holes, of 250–350 50 octets.
    for (offset, length, missing) in [(90, 120, 100), (250, 100, 50), (0, 400, 0), (0, 400, 0)] {
        reception.data(offset, length).unwrap();
        assert_eq!(reception.missing_octets(), Ok(missing));
    }
    assert_eq!((reception.held(0, 400), reception.held(0, 401)), (Ok(true), Ok(false)));
}

#[test]
fn three_passes() {
    // The line of a spectrum lies at 1,850–2,050. After the third pass its two ends were kept and its middle was not.
    let mut list = [0; 128];
    let mut reception = Reception::new(&mut list, Width::Wide).unwrap();
    reception.metadata().unwrap();
    for (offset, length) in [(0, 700), (900, 850), (2150, 1000), (3300, 500)] {
        reception.data(offset, length).unwrap();
    }
    reception.eof(4000).unwrap();
    let passes: [(&[(u64, u64)], u64); 3] =
        [(&[], 950), (&[(700, 200), (2000, 150), (3800, 200)], 400), (&[(1750, 150), (3150, 150)], 100)];
    for (came, missing) in passes {
        for &(offset, length) in came {
            reception.data(offset, length).unwrap();
        }
        assert_eq!((reception.held(1850, 2050), reception.missing_octets()), (Ok(false), Ok(missing)));
    }
    assert_eq!((reception.held(1850, 1900), reception.held(2000, 2050)), (Ok(true), Ok(true)));
    reception.data(1900, 100).unwrap();
    assert_eq!((reception.held(1850, 2050), reception.held(0, 4000), reception.missing_octets()), (Ok(true), Ok(true), Ok(0)));
}

#[test]
fn held_at_the_limits() {
    let mut list = [0; 2];
    let mut reception = Reception::new(&mut list, Width::Wide).unwrap();
    reception.eof(u64::MAX).unwrap();
    assert_eq!((reception.missing_octets(), reception.held(0, u64::MAX)), (Ok(u64::MAX), Ok(false)));
    reception.metadata().unwrap();
    reception.data(u64::MAX - 1, 1).unwrap();
    assert_eq!(reception.missing_octets(), Ok(u64::MAX - 1));
    assert_eq!((reception.held(u64::MAX - 1, u64::MAX), reception.held(u64::MAX - 2, u64::MAX)), (Ok(true), Ok(false)));
    // Nothing came at all, and there is no list.
    let mut none = Reception::new(&mut [], Width::Wide).unwrap();
    assert_eq!((none.held(0, 1), none.missing_octets()), (Ok(false), Ok(0)));
    assert_eq!((none.metadata(), none.data(0, 5), none.held(0, 5), none.held(5, 6)), (Ok(()), Ok(Data::Kept), Ok(true), Ok(false)));
}

#[test]
fn sequence_refuses() {
    let mut list = [0; 4];
    let reception = Reception::new(&mut list, Width::Wide).unwrap();
    let mut buf = [0; 64];
    let mut write = |identity, largest, budget| {
        reception.nak_sequence(identity, FileFlag::Normal, largest).write(budget, &mut buf).unwrap_err()
    };
    assert_eq!(write(Identity { entity_length: 0, ..IDENTITY }, 32, 1), Refusal::BadIdentity);
    assert_eq!(write(IDENTITY, 23, 1), Refusal::PduSize);
    assert_eq!(write(IDENTITY, 32, 17), Refusal::BudgetTooLarge);
    assert_eq!(write(IDENTITY, 32, 3), Refusal::BufferSizeMissmatch { expected: 96, actual: 64 });
    let beyond = reception.nak_sequence(IDENTITY, FileFlag::Normal, 32).at(2).write(1, &mut buf);
    assert_eq!(beyond, Err(Refusal::BadCursor));
}

#[test]
fn pass() {
    let mut list = [0; 64];
    let mut reception = Reception::new(&mut list, Width::Narrow).unwrap();
    reception.metadata().unwrap();
    for i in 0..20 {
        assert_eq!(reception.data(100 * i + 50, 50), Ok(Data::Kept));
    }
    reception.eof(2030).unwrap();
    // Every PDU, two at a time; then what they ask for comes.
    let mut buf = [0; 2 * 40];
    let mut asked = Vec::new();
    let mut sequence = reception.nak_sequence(IDENTITY, FileFlag::Normal, 40);
    loop {
        let sent = sequence.write(2, &mut buf).unwrap();
        if sent.pdus == 0 {
            break;
        }
        let mut rest = &buf[..sent.octets];
        while !rest.is_empty() {
            let (pdu, behind) = rest.split_at(7 + usize::from(rest[1]) * 256 + usize::from(rest[2]));
            asked.extend(NakReader::read(pdu, Edition::Newer).unwrap());
            rest = behind;
        }
    }
    assert_eq!((sequence.cursor(), asked.len()), (21, 21));
    for (start, end) in asked {
        reception.data(start, end - start).unwrap();
    }
    assert_eq!((reception.segments().len(), reception.progress()), (0, 2030));
}
