//! A short pass: metadata, file data with holes, the end of file, and the NAK PDUs that ask for what is missing, until nothing is.
use pusmarke::{Edition, Identity, NakReader, Reception, Refusal, Width};

/// Prints the NAK PDUs of a reception in hex, and hands back what they ask for. The link speaks the newer edition.
fn ask(reception: &Reception) -> Result<Vec<(u64, u64)>, Refusal> {
    let identity = Identity { entity_length: 1, number_length: 1, source: 1, number: 7, destination: 2 };
    let mut sequence = reception.nak_sequence(identity, Edition::Newer, 32);
    let mut asked = Vec::new();
    let mut buf = [0; 32];
    loop {
        let sent = sequence.write(1, &mut buf)?;
        if sent.pdus == 0 {
            return Ok(asked);
        }
        let pdu = &buf[..sent.octets];
        let hex: Vec<String> = pdu.iter().map(|o| format!("{o:02X}")).collect();
        println!("NAK {}", hex.join(" "));
        asked.extend(NakReader::read(pdu, Edition::Newer)?);
    }
}

fn main() -> Result<(), Refusal> {
    let mut list = [0; 16];
    let mut reception = Reception::new(&mut list, Width::Wide)?;
    println!("before metadata: {:?}", reception.data(0, 64)?);
    println!("asks for metadata and for what was noticed:");
    ask(&reception)?;
    reception.metadata()?;
    for (offset, length) in [(0, 100), (200, 100), (120, 30), (400, 24)] {
        reception.data(offset, length)?;
    }
    println!("with metadata, missing below {}: {:?}", reception.progress(), reception.segments().collect::<Vec<_>>());
    reception.eof(500)?;
    println!("with the end of file at {:?}: {:?}", reception.size(), reception.segments().collect::<Vec<_>>());
    println!("50 to 150 kept: {}; missing: {} octets", reception.held(50, 150)?, reception.missing_octets()?);
    for (start, end) in ask(&reception)? {
        reception.data(start, end - start)?;
    }
    println!("after what was asked for came: {:?}", reception.segments().collect::<Vec<_>>());
    println!("0 to 500 kept: {}; missing: {} octets", reception.held(0, 500)?, reception.missing_octets()?);
    Ok(())
}
