// Cuts the NAK writing and the EOF PDU's way out of dest.rs, whose path is DEST: one struct and the functions below,
// each from its first line to the closing brace at the same depth, unchanged.
use std::{env, fs, path::Path};

const FUNCTIONS: [&str; 10] = [
    "    fn reset_nak_activity_parameters_if_active(",
    "    fn handle_file_data_without_previous_metadata(",
    "    fn lost_segment_handling(",
    "    fn deferred_lost_segment_handling(",
    "    fn write_multi_packet_nak_sequence(",
    "    fn handle_eof_pdu(",
    "    fn handle_eof_without_previous_metadata_in_acked_mode(",
    "    fn acknowledge_eof_pdu(",
    "    fn start_deferred_lost_segment_handling(",
    "    fn handle_eof_no_error(",
];

fn cut(lines: &[&str], first: &str, last: &str) -> String {
    let start = lines.iter().position(|l| l.starts_with(first)).unwrap_or_else(|| panic!("no {first}"));
    let end = start + lines[start..].iter().position(|l| *l == last).unwrap_or_else(|| panic!("no end of {first}"));
    lines[start..=end].join("\n") + "\n"
}

fn main() {
    println!("cargo:rerun-if-env-changed=DEST");
    let path = env::var("DEST").expect("DEST must name dest.rs");
    println!("cargo:rerun-if-changed={path}");
    let text = fs::read_to_string(&path).expect("DEST must name dest.rs");
    let lines: Vec<&str> = text.lines().collect();
    let mut out = String::from("#[derive(Debug, Copy, Clone)]\n");
    out += &cut(&lines, "pub struct AcknowledgedModeParams {", "}");
    out += "impl Handler {\n";
    for first in FUNCTIONS {
        out += &cut(&lines, first, "    }");
    }
    out += "}\n";
    fs::write(Path::new(&env::var("OUT_DIR").unwrap()).join("cut.rs"), out).unwrap();
}
