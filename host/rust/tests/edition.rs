//! The two editions of a link: each writes and reads its own packets, and refuses those of the other.
use pusmarke::{write_nak, Edition, FileFlag, Form, Identity, NakReader, Reception, Refusal, Width};

const IDENTITY: Identity = Identity { entity_length: 1, number_length: 1, source: 1, number: 7, destination: 2 };
const REQUESTS: [u64; 4] = [0, 0, 100, 200];

/// What can be written, with the first octet that it has.
const FORMS: [(Edition, FileFlag, u8); 3] =
    [(Edition::Newer, FileFlag::Normal, 0x28), (Edition::Newer, FileFlag::Large, 0x29), (Edition::Older, FileFlag::Normal, 0x08)];

const OLDER_LARGE: Form = Form { edition: Edition::Older, file_flag: FileFlag::Large, crc: false };

/// Document 01's example packet, of the older edition.
const OLDER_EXAMPLE: [u8; 32] = [
    0x08, 0x00, 0x19, 0x00, 0x01, 0x07, 0x02, 0x08, 0x00, 0x00, 0x00, 0x00, 0x00, 0x00, 0x03, 0xE8, 0x00, 0x00, 0x00, 0x00, 0x00,
    0x00, 0x00, 0x00, 0x00, 0x00, 0x00, 0x64, 0x00, 0x00, 0x00, 0xC8,
];

fn other(edition: Edition) -> Edition {
    match edition {
        Edition::Newer => Edition::Older,
        Edition::Older => Edition::Newer,
    }
}

#[test]
fn forms() {
    assert_eq!(Form::default(), Form { edition: Edition::Newer, file_flag: FileFlag::Normal, crc: false });
    assert_eq!(Form::from(FileFlag::Large), Form { edition: Edition::Newer, file_flag: FileFlag::Large, crc: false });
    assert_eq!(Form::from(Edition::Older), Form { edition: Edition::Older, file_flag: FileFlag::Normal, crc: false });
    assert_eq!((Form::from(FileFlag::Normal), Form::from(Edition::Newer)), (Form::default(), Form::default()));
}

#[test]
fn example_packet() {
    let mut buf = [0; 32];
    assert_eq!(write_nak(IDENTITY, Edition::Older, (0, 1000), &REQUESTS, &mut buf), Ok(32));
    assert_eq!(buf, OLDER_EXAMPLE);
    let reader = NakReader::read(&OLDER_EXAMPLE, Edition::Older).unwrap();
    assert_eq!((reader.identity(), reader.file_flag(), reader.scope()), (IDENTITY, FileFlag::Normal, (0, 1000)));
    assert_eq!((reader.request_octets(), reader.collect::<Vec<_>>()), (&OLDER_EXAMPLE[16..], vec![(0, 0), (100, 200)]));
}

#[test]
fn own_packets_alone() {
    for (edition, file_flag, first) in FORMS {
        let mut buf = [0; 56];
        let length = if file_flag == FileFlag::Large { 56 } else { 32 };
        let packet = &mut buf[..length];
        assert_eq!(write_nak(IDENTITY, Form { edition, file_flag, crc: false }, (0, 1000), &REQUESTS, packet), Ok(length));
        assert_eq!(packet[0], first);
        let reader = NakReader::read(packet, edition).unwrap();
        assert_eq!((reader.file_flag(), reader.collect::<Vec<_>>()), (file_flag, vec![(0, 0), (100, 200)]));
        assert_eq!(NakReader::read(packet, other(edition)).unwrap_err(), Refusal::BadHeader);
        // Fewer than four octets are no packet of either.
        assert_eq!(NakReader::read(&packet[..3], other(edition)).unwrap_err(), Refusal::LengthMismatch);
    }
}

#[test]
fn first_octets() {
    // Fields of 4 octets: scope (0, 0), requests (0, 0), (0, 1), (0, 2). Of 8: scope (0, 0), request (1, 2).
    let mut packet = [0; 40];
    packet[..8].copy_from_slice(&[0, 0x00, 0x21, 0x00, 0x01, 0x07, 0x02, 0x08]);
    (packet[31], packet[39]) = (1, 2);
    for octet in 0..=255 {
        packet[0] = octet;
        let read = |edition| NakReader::read(&packet, edition).map(|reader| reader.collect::<Vec<_>>());
        // With the CRC flag the last two octets are a trailer, and 00 02 is not the right one.
        let newer = match octet {
            0x28 => Ok(vec![(0, 0), (0, 1), (0, 2)]),
            0x29 => Ok(vec![(1, 2)]),
            0x2A | 0x2B => Err(Refusal::BadTrailer),
            _ => Err(Refusal::BadHeader),
        };
        let older = match octet {
            0x08 => Ok(vec![(0, 0), (0, 1), (0, 2)]),
            0x0A => Err(Refusal::BadTrailer),
            _ => Err(Refusal::BadHeader),
        };
        assert_eq!((read(Edition::Newer), read(Edition::Older)), (newer, older), "{octet:02x}");
    }
}

#[test]
fn no_large_flag() {
    let mut buf = [0xAA; 56];
    let mut write = |identity, scope, requests: &[u64], length| {
        write_nak(identity, OLDER_LARGE, scope, requests, &mut buf[..length]).unwrap_err()
    };
    assert_eq!(write(IDENTITY, (0, 1000), &REQUESTS[..3], 56), Refusal::BadStore);
    assert_eq!(write(Identity { number: 256, ..IDENTITY }, (0, 1000), &REQUESTS, 56), Refusal::BadIdentity);
    // Then 15, before 18, 3, 2, 14 and 6.
    let many: Vec<u64> = (0..510).collect();
    let cases: [(_, &[u64], _); 6] = [
        ((0, 1000), &REQUESTS, 56),
        ((1000, 0), &REQUESTS, 56),
        ((0, 1000), &[200, 100], 40),
        ((0, 1000), &[5, 5], 40),
        ((0, 1000), &many, 56),
        ((0, 1000), &REQUESTS, 55),
    ];
    for (scope, requests, length) in cases {
        assert_eq!(write(IDENTITY, scope, requests, length), Refusal::BadHeader);
    }
    assert_eq!(buf, [0xAA; 56]);
    assert_eq!(write_nak(IDENTITY, FileFlag::Large, (0, 1000), &many, &mut buf), Err(Refusal::PduSize));
    // The normal flag has no such number.
    let above = write_nak(IDENTITY, Edition::Older, (0, 1 << 32), &REQUESTS, &mut buf[..32]);
    assert_eq!(above, Err(Refusal::LargeSegmentForNormalFileSize));
}

#[test]
fn sequences() {
    let mut list = [0; 8];
    let mut reception = Reception::new(&mut list, Width::Wide).unwrap();
    reception.metadata().unwrap();
    for (offset, length) in [(0, 100), (120, 30), (200, 100)] {
        reception.data(offset, length).unwrap();
    }
    // Missing: 100–120 and 150–200. Two PDUs of one request each, the same of both editions but for the first octet.
    let (mut newer, mut older) = ([0; 48], [0; 48]);
    let mut sequence = reception.nak_sequence(IDENTITY, FileFlag::Normal, 24);
    assert_eq!(sequence.write(2, &mut newer).map(|sent| (sent.pdus, sent.octets)), Ok((2, 48)));
    let mut sequence = reception.nak_sequence(IDENTITY, Edition::Older, 24);
    assert_eq!(sequence.write(2, &mut older).map(|sent| (sent.pdus, sent.octets)), Ok((2, 48)));
    assert_eq!((newer[0], newer[24], older[0], older[24]), (0x28, 0x28, 0x08, 0x08));
    (newer[0], newer[24]) = (0x08, 0x08);
    assert_eq!(newer, older);
    let asked: Vec<_> = older.chunks(24).flat_map(|pdu| NakReader::read(pdu, Edition::Older).unwrap()).collect();
    assert_eq!(asked, [(100, 120), (150, 200)]);
    assert!(older.chunks(24).all(|pdu| NakReader::read(pdu, Edition::Newer).unwrap_err() == Refusal::BadHeader));
    // 15 behind 13, and before 14, 11, 20 and 6.
    let mut write = |identity, largest, cursor, budget| {
        reception.nak_sequence(identity, OLDER_LARGE, largest).at(cursor).write(budget, &mut older).unwrap_err()
    };
    assert_eq!(write(Identity { entity_length: 9, ..IDENTITY }, 40, 0, 1), Refusal::BadIdentity);
    for (largest, cursor, budget) in [(40, 0, 1), (39, 0, 1), (4097, 0, 1), (40, 3, 1), (40, 0, 17), (40, 0, 2)] {
        assert_eq!(write(IDENTITY, largest, cursor, budget), Refusal::BadHeader);
    }
    assert_eq!(newer, older);
}
