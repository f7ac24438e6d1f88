//! The declarations of src/ffi.rs are those of host/include/pusmarke.h: functions with their argument types in order, and structs with
//! their fields. The refusals of the crate and of the header are those of the definition, by number and name;
//! what a removal did, what a tick asks for and what a timer is at have the same numbers in both.
use pusmarke::{Activity, Refusal, Removed, Tick};
use std::{collections::BTreeMap, fs, path::Path};

fn text(path: &str) -> String {
    fs::read_to_string(Path::new(env!("CARGO_MANIFEST_DIR")).join(path)).unwrap()
}

/// C's text without its comments.
fn bare(text: &str) -> String {
    let mut out = String::new();
    let mut rest = text;
    while let Some((before, behind)) = rest.split_once("/*") {
        out.push_str(before);
        rest = behind.split_once("*/").unwrap().1;
    }
    out + rest
}

/// A declaration of C without its name, as Rust says it: `const uint8_t *packet` is `*const u8`, `size_t floors[8]` is `[usize; 8]`.
fn from_c(declaration: &str) -> String {
    if let Some((one, number)) = declaration.split_once('[') {
        return format!("[{}; {}]", from_c(one), number.strip_suffix(']').unwrap());
    }
    let at = declaration.rfind([' ', '*']).unwrap() + 1;
    let (before, _) = declaration.split_at(at);
    let pointer = before.contains('*');
    let constant = before.contains("const ");
    let name = before.replace("const ", "").replace('*', "");
    let name = match name.trim() {
        "uint64_t" => "u64",
        "uint8_t" => "u8",
        "uint16_t" => "u16",
        "size_t" => "usize",
        "struct pusmarke_answer" => "Answer",
        "struct pusmarke_reception" => "Record",
        "struct pusmarke_pool" => "Pool",
        "struct pusmarke_deferred" => "Timer",
        "struct pusmarke_heard" => "Heard",
        "struct pusmarke_identity" => "Identity",
        "struct pusmarke_form" => "Form",
        "struct pusmarke_nak" => "Nak",
        "struct pusmarke_step" => "Step",
        other => panic!("a type of C's that is not known here: {other}"),
    };
    match (pointer, constant) {
        (false, _) => name.to_string(),
        (true, true) => format!("*const {name}"),
        (true, false) => format!("*mut {name}"),
    }
}

/// Each declared function of the header: its argument types in order, and then what it returns.
fn functions_of_c(text: &str) -> BTreeMap<String, Vec<String>> {
    let mut all = BTreeMap::new();
    for statement in text.split(';') {
        let Some((before, behind)) = statement.split_once('(') else { continue };
        let head = before.rsplit(['}', '{', '#']).next().unwrap().trim();
        let Some((result, name)) = head.rsplit_once(' ') else { continue };
        if !name.starts_with("pusmarke_") {
            continue;
        }
        let list = behind.trim_end().trim_end_matches(')');
        let mut types: Vec<String> = list.split(',').map(str::trim).filter(|a| *a != "void").map(from_c).collect();
        types.push(from_c(&format!("{result} x")));
        all.insert(name.to_string(), types);
    }
    all
}

fn functions_of_rust(text: &str) -> BTreeMap<String, Vec<String>> {
    let block = text.split_once("extern \"C\" {").unwrap().1.split_once("\n}").unwrap().0;
    let mut all = BTreeMap::new();
    for statement in block.split(';').filter(|s| s.contains("fn ")) {
        let (name, behind) = statement.split_once("fn ").unwrap().1.split_once('(').unwrap();
        let (list, result) = behind.split_once(')').unwrap();
        let mut types: Vec<String> = list.split(',').filter_map(|a| a.split_once(':')).map(|(_, t)| t.trim().to_string()).collect();
        types.push(result.trim().trim_start_matches("->").trim().to_string());
        all.insert(name.to_string(), types);
    }
    all
}

/// The fields of a struct, each with its type, in order.
fn fields_of_c(text: &str, name: &str) -> Vec<(String, String)> {
    let body = text.split_once(&format!("struct {name} {{")).unwrap().1.split_once('}').unwrap().0;
    body.split(';')
        .map(str::trim)
        .filter(|f| !f.is_empty())
        .map(|f| (f.rsplit_once(' ').unwrap().1.split('[').next().unwrap().to_string(), from_c(f)))
        .collect()
}

fn fields_of_rust(text: &str, name: &str) -> Vec<(String, String)> {
    let body = text.split_once(&format!("struct {name} {{")).unwrap().1.split_once("\n}").unwrap().0;
    body.lines()
        .filter_map(|l| l.trim().strip_prefix("pub "))
        .map(|l| l.trim_end_matches(',').split_once(": ").unwrap())
        .map(|(f, t)| (f.to_string(), t.to_string()))
        .collect()
}

#[test]
fn functions() {
    let c = functions_of_c(&bare(&text("../include/pusmarke.h")));
    let rust = functions_of_rust(&text("src/ffi.rs"));
    assert_eq!(c.len(), 31);
    assert_eq!(c, rust);
}

#[test]
fn structs() {
    let c = bare(&text("../include/pusmarke.h"));
    let rust = text("src/ffi.rs");
    for (a, b) in [
        ("pusmarke_answer", "Answer"),
        ("pusmarke_reception", "Record"),
        ("pusmarke_pool", "Pool"),
        ("pusmarke_deferred", "Timer"),
        ("pusmarke_heard", "Heard"),
        ("pusmarke_identity", "Identity"),
        ("pusmarke_form", "Form"),
        ("pusmarke_nak", "Nak"),
        ("pusmarke_step", "Step"),
    ] {
        let fields = fields_of_c(&c, a);
        assert!(fields.len() >= 2);
        assert_eq!(fields, fields_of_rust(&rust, b), "{a}");
    }
}

/// `STORE_FULL` as Rust says it: `StoreFull`.
fn camel(name: &str) -> String {
    name.split('_').map(|w| w[..1].to_string() + &w[1..].to_lowercase()).collect()
}

/// The names of an enum of the header, by number, without what they all begin with.
fn names_of_c(text: &str, name: &str, prefix: &str) -> BTreeMap<u64, String> {
    let body = text.split_once(&format!("enum {name} {{")).unwrap().1.split_once('}').unwrap().0;
    body.split(',')
        .map(|l| l.trim().split_once(" = ").unwrap())
        .map(|(name, number)| (number.parse().unwrap(), camel(name.strip_prefix(prefix).unwrap())))
        .collect()
}

/// Those of the definition, `refusing refusal.StoreFull = refused 1 []`.
fn refusals_of_the_definition(text: &str) -> BTreeMap<u64, String> {
    text.lines()
        .filter_map(|l| l.strip_prefix("refusing ")?.split_once(" = refused "))
        .map(|(left, right)| (right, left.split_once("refusal.").unwrap().1))
        .map(|(right, left)| (right.split(' ').next().unwrap().parse().unwrap(), left.split([' ', ')']).next().unwrap().to_string()))
        .collect()
}

#[test]
fn refusals() {
    let mut c = names_of_c(&bare(&text("../include/pusmarke.h")), "pusmarke_refusal", "PUSMARKE_");
    assert_eq!(c.remove(&0).as_deref(), Some("Accepted"));
    let definition = refusals_of_the_definition(&text("../../crates/outcomes/specs/Refusal.antt"));
    assert!(definition.len() >= 20);
    assert_eq!(c, definition);
    for (number, name) in &definition {
        let refusal = Refusal::of(*number, 7, 8).unwrap();
        assert_eq!(format!("{refusal:?}").split([' ', '(']).next().unwrap(), name);
        assert_eq!(refusal.number(), *number);
    }
    // A number that is none of these, above them or between them, is not turned into another one.
    let above = definition.keys().max().unwrap() + 1;
    for number in (1..=above).filter(|number| !definition.contains_key(number)) {
        assert_eq!(Refusal::of(number, 0, 0), Some(Refusal::Unknown(number)));
    }
    assert_eq!(Refusal::of(0, 0, 0), None);
}

#[test]
fn removals() {
    let c = names_of_c(&bare(&text("../include/pusmarke.h")), "pusmarke_removed", "PUSMARKE_REMOVED_");
    assert_eq!(c.keys().copied().collect::<Vec<_>>(), [0, 1, 2, 3, 4]);
    for (number, name) in &c {
        let removed = Removed::of(*number, 7, 8).unwrap();
        assert_eq!(format!("{removed:?}").split(' ').next().unwrap(), name);
        assert_eq!(removed.is_some(), *number != 0);
    }
    assert_eq!(Removed::of(5, 7, 8), Err(Refusal::Unknown(5)));
}

#[test]
fn timers() {
    let c = bare(&text("../include/pusmarke.h"));
    let ticks = names_of_c(&c, "pusmarke_ticked", "PUSMARKE_TICK_");
    let activities = names_of_c(&c, "pusmarke_activity", "PUSMARKE_TIMER_");
    assert_eq!((ticks.len(), activities.len()), (3, 3));
    for number in 0..3 {
        assert_eq!(format!("{:?}", Tick::of(number).unwrap()), ticks[&number]);
        assert_eq!(format!("{:?}", Activity::of(number)), activities[&number]);
    }
    assert_eq!((Tick::of(3), Activity::of(3)), (Err(Refusal::Unknown(3)), Activity::Deaf));
}
