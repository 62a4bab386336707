//! What may stand in the place of one line of an answer's text: numbers about
//! the ends of its range, and lines with a fault of form, of range, or of both.

use crate::answers::LINES;
use crate::reader::number;

pub const WITHIN: &str = "number within its range";
pub const FORM: &str = "line of no form";
pub const RANGE: &str = "number out of its range";
pub const BOTH: &str = "line of no form, out of range";

/// A slip's kind, and the line with its last byte.
pub type Slip = (&'static str, Vec<u8>);

/// All slips of the line with this index (0 is the first) and this value.
pub fn slips(at: usize, value: &str) -> Vec<Slip> {
    let line = &LINES[at];
    let mut all = Vec::new();
    let mut add = |kind, text: String| all.push((kind, (text + "\n").into_bytes()));
    for text in about_the_ends() {
        let allowed = number(text.as_bytes()).is_some_and(line.allows);
        let kind = if allowed { WITHIN } else { RANGE };
        for value in with_entry(line.list, value, &text) {
            add(kind, format!("{}={value}", line.key));
        }
    }
    let (form, both) = if line.list {
        (formless_lists(value), formless_lists_out_of_range())
    } else {
        (formless_numbers(value), formless_numbers_out_of_range())
    };
    for value in form {
        add(FORM, format!("{}={value}", line.key));
    }
    for value in both {
        add(BOTH, format!("{}={value}", line.key));
    }
    for text in other_keys(line.key, value) {
        add(FORM, text);
    }
    add(BOTH, format!("{} =99999999999", line.key));
    // Here the line's own end is what is missing.
    all.push((FORM, format!("{}={value}", line.key).into_bytes()));
    all.push((BOTH, format!("{}=99999999999", line.key).into_bytes()));
    all
}

/// Numbers about the ends of the ranges and of the machine's words, and ones
/// of very many digits.
fn about_the_ends() -> Vec<String> {
    let ends = [
        0..=16,
        99..=101,
        126..=129,
        254..=257,
        65_534..=65_537,
        31_999_999..=32_000_001,
        u32::MAX as u128 - 1..=u32::MAX as u128 + 2,
        u64::MAX as u128 - 1..=u64::MAX as u128 + 8,
        u128::MAX..=u128::MAX,
    ];
    let mut all: Vec<String> = ends.into_iter().flatten().map(|n| n.to_string()).collect();
    all.extend(["9".repeat(300), format!("1{}", "0".repeat(299))]);
    all.push(format!("{}1", "256".repeat(400)));
    all
}

/// The number by itself; in a list, at its front and at its end too.
fn with_entry(list: bool, value: &str, entry: &str) -> Vec<String> {
    let mut all = vec![entry.to_string()];
    if list && !value.is_empty() {
        all.extend([format!("{entry},{value}"), format!("{value},{entry}")]);
    }
    all
}

fn formless_numbers(value: &str) -> Vec<String> {
    let mut all: Vec<String> = [
        "",
        "00",
        "01",
        "007",
        "-0",
        "-1",
        "+1",
        "0x1",
        "1e3",
        "1.0",
        "1_000",
        "32,000,000",
        "one",
        "\u{661}",
        "\0",
    ]
    .map(String::from)
    .to_vec();
    all.extend(["0", "+", "-", " ", "\t", ",", "="].map(|sign| format!("{sign}{value}")));
    all.extend(
        [" ", "\r", "\t", "\0", ",", ";", "=", ".", "x", ",0", " 0"]
            .map(|sign| format!("{value}{sign}")),
    );
    all.extend(["0".repeat(300), format!("{}1", "0".repeat(300))]);
    all
}

fn formless_numbers_out_of_range() -> Vec<String> {
    let mut all = Vec::new();
    for big in ["99999999999", "18446744073709551616"] {
        all.extend(["0", "+", "-", " ", ","].map(|sign| format!("{sign}{big}")));
        all.extend([" ", "\r", ",", "x", ",0"].map(|sign| format!("{big}{sign}")));
    }
    all
}

fn formless_lists(value: &str) -> Vec<String> {
    let mut all: Vec<String> = [
        ",",
        ",,",
        "0,,1",
        ",1",
        "1,",
        "1,2,",
        "01",
        "00",
        "0,01",
        "01,0",
        "0,00,1",
        "1, 2",
        "1 ,2",
        "1 2",
        "1;2",
        "1.2",
        "[1,2]",
        "-1",
        "+1",
        "0,-0",
        "0,+1",
        "0x1",
        "a",
        "0,a",
        "1\0",
        "1\0,2",
        "\u{661}",
        "0,\u{661}",
    ]
    .map(String::from)
    .to_vec();
    all.extend([" ", "\t", ",", "=", "+", "-"].map(|sign| format!("{sign}{value}")));
    all.extend([" ", "\r", "\0", ",", ",,0", ";", "="].map(|sign| format!("{value}{sign}")));
    all.extend(["0".repeat(300), format!("0,{}1", "0".repeat(300))]);
    all
}

fn formless_lists_out_of_range() -> Vec<String> {
    let mut all = Vec::new();
    for big in ["128", "256", "99999999999", "18446744073709551616"] {
        all.extend([
            format!("{big},"),
            format!(",{big}"),
            format!("{big},,1"),
            format!("{big},01"),
            format!("01,{big}"),
            format!("0,{big},x"),
            format!("0,{big} "),
            format!("{big}\r"),
            format!("{big};1"),
            format!("0,+{big}"),
        ]);
    }
    all
}

/// The line with another key, or without a key or what follows it.
fn other_keys(key: &str, value: &str) -> Vec<String> {
    let mut all = vec![
        String::new(),
        key.into(),
        value.into(),
        format!("{key}{value}"),
        format!("={value}"),
        format!(" {key}={value}"),
        format!("{key} ={value}"),
        format!("{key}= {value}"),
        format!("{key}:{value}"),
        format!("{key}=={value}"),
        format!("{key}s={value}"),
        format!("{}={value}", &key[1..]),
        format!("{}={value}", &key[..key.len() - 1]),
        format!("{}={value}", key.to_uppercase()),
        format!("\u{feff}{key}={value}"),
        format!("{key}\0={value}"),
        format!("{key}={key}={value}"),
        format!("\n{key}={value}"),
        format!("{key}={value}\n"),
        format!("tour={value}"),
    ];
    let others = LINES.iter().filter(|line| line.key != key);
    all.extend(others.map(|line| format!("{}={value}", line.key)));
    all
}
