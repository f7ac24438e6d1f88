//! PDUs that mission planning proposes, checked against a reception. The packets are written by `write_nak`, whose octets the other tests
//! hold against the papers.
use pusmarke::{write_nak, Edition, FileFlag, Form, Identity, Reception, Refusal, Width};

const IDENTITY: Identity = Identity { entity_length: 1, number_length: 1, source: 1, number: 7, destination: 2 };

/// Some PDUs back to back and their lengths: each a scope and its requests.
fn proposed(form: Form, pdus: &[(u64, u64, &[u64])]) -> (Vec<u16>, Vec<u8>) {
    let (mut lengths, mut octets) = (vec![], vec![]);
    let field = if form.file_flag == FileFlag::Large { 8 } else { 4 };
    for (start, end, requests) in pdus {
        let mut buf = vec![0; 8 + field * (2 + requests.len()) + if form.crc { 2 } else { 0 }];
        write_nak(IDENTITY, form, (*start, *end), requests, &mut buf).unwrap();
        lengths.push(buf.len() as u16);
        octets.extend(buf);
    }
    (lengths, octets)
}

/// Holes 100-150, 200-250 and 600-700 of a file of 1,000 octets.
fn with_holes<R>(run: impl FnOnce(&Reception) -> R) -> R {
    let mut list = [0; 16];
    let mut reception = Reception::new(&mut list, Width::Wide).unwrap();
    reception.metadata().unwrap();
    for (offset, length) in [(0, 100), (150, 50), (250, 350), (700, 300)] {
        reception.data(offset, length).unwrap();
    }
    reception.eof(1000).unwrap();
    run(&reception)
}

fn checked(reception: &Reception, form: Form, pdus: &[(u64, u64, &[u64])]) -> Result<(), Refusal> {
    let (lengths, octets) = proposed(form, pdus);
    let mut scratch = vec![7; octets.len() / 8 * 2];
    let said = reception.check_plan(IDENTITY, form.edition, &lengths, &octets, &mut scratch);
    assert!(scratch.iter().all(|n| *n == 0));
    said
}

#[test]
fn any_order_and_cuts_fit_in_every_form() {
    let forms = [Form::from(FileFlag::Normal), Form::from(FileFlag::Large), Form::from(Edition::Older)];
    with_holes(|reception| {
        for form in forms.into_iter().flat_map(|form| [form, Form { crc: true, ..form }]) {
            assert_eq!(checked(reception, form, &[(600, 700, &[600, 700]), (0, 250, &[100, 150, 200, 250])]), Ok(()));
            assert_eq!(checked(reception, form, &[(0, 1000, &[650, 700, 100, 120]), (0, 0, &[]), (0, 700, &[120, 150, 200, 250, 600, 650])]), Ok(()));
        }
    });
}

#[test]
fn each_test_names_its_pdu() {
    let plain = Form::from(FileFlag::Normal);
    let all: &[u64] = &[100, 150, 200, 250];
    let failing = |test, pdu| Err(Refusal::BadPlan { test, pdu });
    with_holes(|reception| {
        assert_eq!(checked(reception, plain, &[(600, 699, &[600, 700]), (0, 250, all)]), failing(3, 0));
        assert_eq!(checked(reception, plain, &[(600, 700, &[600, 700]), (0, 700, &[100, 150, 200, 250, 690, 700])]), failing(4, 1));
        assert_eq!(checked(reception, plain, &[(600, 700, &[600, 700]), (0, 250, &[100, 151, 200, 250])]), failing(5, 1));
        assert_eq!(checked(reception, plain, &[(600, 700, &[600, 700]), (0, 250, &[200, 250])]), failing(5, 2));
        assert_eq!(checked(reception, plain, &[(600, 700, &[600, 700, 0, 0]), (0, 250, all)]), failing(6, 0));
        assert_eq!(checked(reception, plain, &[]), failing(5, 0));
        let (lengths, mut octets) = proposed(plain, &[(600, 700, &[600, 700]), (0, 250, all)]);
        let mut scratch = [0; 14];
        octets[24 + 5] = 8;
        assert_eq!(reception.check_plan(IDENTITY, Edition::Newer, &lengths, &octets, &mut scratch), failing(2, 1));
        octets[24] ^= 0x20;
        assert_eq!(reception.check_plan(IDENTITY, Edition::Newer, &lengths, &octets, &mut scratch), failing(1, 1));
        assert_eq!(reception.check_plan(IDENTITY, Edition::Older, &lengths, &octets, &mut scratch), failing(1, 0));
    });
}

#[test]
fn what_is_refused_before_the_tests_leaves_the_scratch() {
    with_holes(|reception| {
        let (lengths, octets) = proposed(Form::from(FileFlag::Normal), &[(600, 700, &[600, 700]), (0, 250, &[100, 150, 200, 250])]);
        let mut scratch = [7; 13];
        let missing = |expected, actual| Err(Refusal::BufferSizeMissmatch { expected, actual });
        assert_eq!(reception.check_plan(IDENTITY, Edition::Newer, &lengths, &octets, &mut scratch), missing(14, 13));
        assert_eq!(reception.check_plan(IDENTITY, Edition::Newer, &lengths[..1], &octets, &mut scratch), missing(24, 56));
        assert_eq!(reception.check_plan(IDENTITY, Edition::Newer, &[0; 17], &octets, &mut scratch), Err(Refusal::BudgetTooLarge));
        let bad = Identity { number_length: 0, ..IDENTITY };
        assert_eq!(reception.check_plan(bad, Edition::Newer, &lengths, &octets, &mut scratch), Err(Refusal::BadIdentity));
        assert_eq!(scratch, [7; 13]);
    });
}

#[test]
fn our_own_sequence_fits_and_metadata_is_asked_for_once() {
    let mut list = [0; 64];
    let mut reception = Reception::new(&mut list, Width::Wide).unwrap();
    reception.data(0, 5000).unwrap();
    let (mut buf, mut scratch) = ([0; 16 * 64], [0; 256]);
    for (form, largest) in [(Form::from(FileFlag::Normal), 24), (Form { crc: true, ..Edition::Older.into() }, 34), (Form::from(FileFlag::Large), 64)] {
        let sent = reception.nak_sequence(IDENTITY, form, largest).write(16, &mut buf).unwrap();
        let (mut lengths, mut at) = (vec![], 0);
        while at < sent.octets {
            let length = 7 + usize::from(buf[at + 1]) * 256 + usize::from(buf[at + 2]);
            lengths.push(length as u16);
            at += length;
        }
        assert_eq!(lengths.len(), sent.pdus);
        assert_eq!(reception.check_plan(IDENTITY, form.edition, &lengths, &buf[..sent.octets], &mut scratch), Ok(()));
    }
    let (lengths, octets) = proposed(Form::from(FileFlag::Normal), &[(0, 5000, &[0, 5000])]);
    assert_eq!(reception.check_plan(IDENTITY, Edition::Newer, &lengths, &octets, &mut scratch), Err(Refusal::BadPlan { test: 6, pdu: 1 }));
    let (lengths, octets) = proposed(Form::from(FileFlag::Normal), &[(0, 5000, &[0, 0, 0, 5000]), (0, 0, &[0, 0])]);
    assert_eq!(reception.check_plan(IDENTITY, Edition::Newer, &lengths, &octets, &mut scratch), Err(Refusal::BadPlan { test: 6, pdu: 1 }));
    assert_eq!((Refusal::of(26, 4, 2), Refusal::BadPlan { test: 4, pdu: 2 }.number()), (Some(Refusal::BadPlan { test: 4, pdu: 2 }), 26));
}
