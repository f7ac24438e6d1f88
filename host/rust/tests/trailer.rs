//! PDUs with the CRC trailer. What is expected comes from document 02's example and from the definition: polynomial 1021 hex, from FFFF on.
use pusmarke::{write_nak, Edition, FileFlag, Form, Identity, NakReader, Reception, Refusal, Width};

const IDENTITY: Identity = Identity { entity_length: 1, number_length: 1, source: 1, number: 7, destination: 2 };
const REQUESTS: [u64; 4] = [0, 0, 100, 200];
const CRC: Form = Form { edition: Edition::Newer, file_flag: FileFlag::Normal, crc: true };
const OLDER_CRC: Form = Form { edition: Edition::Older, ..CRC };
const LARGE_CRC: Form = Form { file_flag: FileFlag::Large, ..CRC };

/// Document 01's example packet with the CRC flag.
const EXAMPLE: [u8; 34] = [
    0x2A, 0x00, 0x1B, 0x00, 0x01, 0x07, 0x02, 0x08, 0x00, 0x00, 0x00, 0x00, 0x00, 0x00, 0x03, 0xE8, 0x00, 0x00, 0x00, 0x00, 0x00,
    0x00, 0x00, 0x00, 0x00, 0x00, 0x00, 0x64, 0x00, 0x00, 0x00, 0xC8, 0x02, 0x65,
];

/// The CRC as it is defined, bit by bit: no table.
fn crc(octets: &[u8]) -> u16 {
    let mut rest = 0xFFFF;
    for octet in octets {
        for bit in (0..8).rev() {
            let out = (rest >> 15 ^ u16::from(*octet) >> bit) & 1;
            rest = rest << 1 ^ out * 0x1021;
        }
    }
    rest
}

/// The packet with its trailer put right.
fn sealed(mut packet: Vec<u8>) -> Vec<u8> {
    let before = packet.len() - 2;
    let right = crc(&packet[..before]).to_be_bytes();
    packet[before..].copy_from_slice(&right);
    packet
}

fn refusal(packet: &[u8]) -> Refusal {
    NakReader::read(packet, Edition::Newer).unwrap_err()
}

#[test]
fn check_value() {
    assert_eq!(crc(b"123456789"), 0x29B1);
    assert_eq!(crc(&EXAMPLE[..32]), 0x0265);
}

#[test]
fn example_packet() {
    let mut buf = [0; 34];
    assert_eq!(write_nak(IDENTITY, CRC, (0, 1000), &REQUESTS, &mut buf), Ok(34));
    assert_eq!(buf, EXAMPLE);
    let reader = NakReader::read(&EXAMPLE, Edition::Newer).unwrap();
    assert!(reader.has_crc());
    assert_eq!((reader.identity(), reader.file_flag(), reader.scope()), (IDENTITY, FileFlag::Normal, (0, 1000)));
    // The trailer is in no request.
    assert_eq!((reader.request_octets(), reader.collect::<Vec<_>>()), (&EXAMPLE[16..32], vec![(0, 0), (100, 200)]));
    // The buffer has room for the trailer, and no more.
    for length in [32, 33, 35] {
        let mut buf = [0xAA; 35];
        let wrong = Refusal::BufferSizeMissmatch { expected: 34, actual: length };
        assert_eq!(write_nak(IDENTITY, CRC, (0, 1000), &REQUESTS, &mut buf[..length]), Err(wrong));
        assert_eq!(buf, [0xAA; 35]);
    }
}

#[test]
fn forms() {
    for (form, first, length) in [(CRC, 0x2A, 34), (LARGE_CRC, 0x2B, 58), (OLDER_CRC, 0x0A, 34)] {
        let mut buf = [0; 58];
        let packet = &mut buf[..length];
        assert_eq!(write_nak(IDENTITY, form, (0, 1000), &REQUESTS, packet), Ok(length));
        assert_eq!((packet[0], packet[1], usize::from(packet[2])), (first, 0, length - 7));
        assert_eq!(packet[length - 2..], crc(&packet[..length - 2]).to_be_bytes());
        let reader = NakReader::read(packet, form.edition).unwrap();
        assert_eq!((reader.has_crc(), reader.file_flag()), (true, form.file_flag));
        assert_eq!((reader.scope(), reader.collect::<Vec<_>>()), ((0, 1000), vec![(0, 0), (100, 200)]));
        let other = if form.edition == Edition::Newer { Edition::Older } else { Edition::Newer };
        assert_eq!(NakReader::read(packet, other).unwrap_err(), Refusal::BadHeader);
        // The same without the flag: two octets less, and the flag read says so.
        let mut plain = [0; 56];
        let plain = &mut plain[..length - 2];
        assert_eq!(write_nak(IDENTITY, Form { crc: false, ..form }, (0, 1000), &REQUESTS, plain), Ok(length - 2));
        assert_eq!((plain[0], usize::from(plain[2])), (first & !2, length - 9));
        assert_eq!(plain[3..], packet[3..length - 2]);
        assert!(!NakReader::read(plain, form.edition).unwrap().has_crc());
    }
    // The older edition has no large flag, with a trailer neither.
    let older_large = Form { file_flag: FileFlag::Large, ..OLDER_CRC };
    assert_eq!(write_nak(IDENTITY, older_large, (0, 1000), &REQUESTS, &mut [0; 58]), Err(Refusal::BadHeader));
}

#[test]
fn damage() {
    // One bit turned, anywhere: never accepted; behind the header it is always the trailer that says so.
    for bit in 0..34 * 8 {
        let mut packet = EXAMPLE;
        packet[bit / 8] ^= 1 << (bit % 8);
        let refused = refusal(&packet);
        if bit >= 4 * 8 {
            assert_eq!(refused, Refusal::BadTrailer, "bit {bit}");
        }
    }
    // The flag taken away: the two octets are no request.
    let mut packet = EXAMPLE;
    packet[0] = 0x28;
    assert_eq!(refusal(&packet), Refusal::LengthMismatch);
    // The flag set on a plain packet: its last two octets, 00 C8, are not its CRC.
    let mut packet = [0; 32];
    assert_eq!(write_nak(IDENTITY, FileFlag::Normal, (0, 1000), &REQUESTS, &mut packet), Ok(32));
    packet[0] = 0x2A;
    assert_eq!(refusal(&packet), Refusal::BadTrailer);
    // The trailer low octet first; each of its octets away.
    let mut packet = EXAMPLE;
    packet.swap(32, 33);
    assert_eq!(refusal(&packet), Refusal::BadTrailer);
    assert_eq!(refusal(&EXAMPLE[..33]), Refusal::LengthMismatch);
    assert_eq!(refusal(&EXAMPLE[..32]), Refusal::LengthMismatch);
}

#[test]
fn order_of_the_checks() {
    // 16 before 21: a length field of 0, 1 and 2, the octets as many, the trailer right where there is room for it.
    assert_eq!(refusal(&[0x2A, 0, 0, 0, 1, 7, 2]), Refusal::LengthMismatch);
    assert_eq!(refusal(&[0x2A, 0, 1, 0, 1, 7, 2, 8]), Refusal::LengthMismatch);
    assert_eq!(refusal(&sealed(vec![0x2A, 0, 2, 0, 1, 7, 2, 0, 0])), Refusal::LengthMismatch);
    // At 3 the trailer is looked at, then the directive code, then the data field without it.
    assert_eq!(refusal(&[0x2A, 0, 3, 0, 1, 7, 2, 9, 0, 0]), Refusal::BadTrailer);
    assert_eq!(refusal(&sealed(vec![0x2A, 0, 3, 0, 1, 7, 2, 9, 0, 0])), Refusal::NotNak);
    assert_eq!(refusal(&sealed(vec![0x2A, 0, 3, 0, 1, 7, 2, 8, 0, 0])), Refusal::LengthMismatch);
    // Without the flag a length field of 1 has its directive code looked at.
    assert_eq!(refusal(&[0x28, 0, 1, 0, 1, 7, 2, 9]), Refusal::NotNak);
    // 15 before 16 and 21; 21 before 17, 16 and 18.
    assert_eq!(refusal(&[0x6A, 0, 3, 0, 1, 7, 2, 9, 0, 0]), Refusal::BadHeader);
    let mut packet = EXAMPLE.to_vec();
    packet[7] = 9;
    assert_eq!((refusal(&packet), refusal(&sealed(packet))), (Refusal::BadTrailer, Refusal::NotNak));
    let mut packet = EXAMPLE.to_vec();
    packet[8] = 0xFF;
    assert_eq!((refusal(&packet), refusal(&sealed(packet))), (Refusal::BadTrailer, Refusal::ScopeReversed));
    // Two octets more or less than whole requests, as a reader would count that takes the trailer for octets of them.
    let mut packet = EXAMPLE.to_vec();
    packet[2] -= 2;
    packet.truncate(32);
    assert_eq!(refusal(&sealed(packet)), Refusal::LengthMismatch);
}

#[test]
fn sizes() {
    // 509 requests and a trailer have 4,090 octets with identifiers of one octet; 510 have 4,098, and without a trailer 4,096.
    let many: Vec<u64> = (1..=2 * 510).collect();
    let mut buf = [0; 4098];
    assert_eq!(write_nak(IDENTITY, CRC, (0, 2000), &many[..2 * 509], &mut buf[..4090]), Ok(4090));
    assert_eq!(NakReader::read(&buf[..4090], Edition::Newer).unwrap().count(), 509);
    assert_eq!(write_nak(IDENTITY, CRC, (0, 2000), &many, &mut buf), Err(Refusal::PduSize));
    assert_eq!(write_nak(IDENTITY, FileFlag::Normal, (0, 2000), &many, &mut buf[..4096]), Ok(4096));
    // The same octets with the flag and a right trailer: 4,098 octets are refused, though the requests are fine.
    (buf[0], buf[1], buf[2]) = (0x2A, 0x0F, 0xFB);
    assert_eq!(refusal(&buf), Refusal::BadTrailer);
    assert_eq!(refusal(&sealed(buf.to_vec())), Refusal::PduSize);
}

#[test]
fn sequences() {
    let mut list = [0; 8];
    let mut reception = Reception::new(&mut list, Width::Wide).unwrap();
    reception.data(0, 64).unwrap();
    // Entries (0, 0) and (0, 64). H + 3 + 4F is 26: 25 is 14, 26 to 33 have room for one request, 34 for two.
    let mut buf = [0; 68];
    let mut write =
        |form: Form, largest| reception.nak_sequence(IDENTITY, form, largest).write(2, &mut buf).map(|s| (s.pdus, s.octets));
    assert_eq!(write(CRC, 25), Err(Refusal::PduSize));
    for largest in [26, 32, 33] {
        assert_eq!(write(CRC, largest), Ok((2, 52)), "{largest}");
    }
    assert_eq!(write(Form::default(), 32), Ok((1, 32)));
    assert_eq!(write(CRC, 34), Ok((1, 34)));
    assert_eq!(write(OLDER_CRC, 34), Ok((1, 34)));
    assert_eq!(NakReader::read(&buf[..34], Edition::Older).unwrap().collect::<Vec<_>>(), [(0, 0), (0, 64)]);
    // H + 3 + 4F is 42 with the large flag.
    let mut write = |largest| reception.nak_sequence(IDENTITY, LARGE_CRC, largest).write(1, &mut buf).map(|s| (s.pdus, s.octets));
    assert_eq!((write(41), write(42)), (Err(Refusal::PduSize), Ok((1, 42))));
    assert_eq!(buf[40..42], crc(&buf[..40]).to_be_bytes());
    assert_eq!(NakReader::read(&buf[..42], Edition::Newer).unwrap().collect::<Vec<_>>(), [(0, 0)]);
}
