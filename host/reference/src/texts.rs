//! Fixed texts to read as answers.

use crate::answers::{Answer, ANSWERS, MAX_COST, MAX_LINE};
use crate::cases::Case;
use crate::damage::{every_damage, Harmed};
use crate::random::Random;
use crate::slips::{slips, Slip, BOTH, FORM, RANGE, WITHIN};

/// The buffers that `plantour` lends, and more places than they hold.
const MAX_RUN_IN: usize = 2_048;
const MAX_CYCLE: usize = 20_480;
const VERY_MANY: usize = 100_000;

/// What lies in memory behind a text that is not cut: a reader that goes on
/// finds more of a list there, and another line.
const BEHIND: &[u8] = b"0,1\nloop=0\n";

/// The text that 01 has `plantour` print.
pub const OF_01: &[u8] = b"answer=6\nline=0\ncost=0\nkept=0\nrunin=\nloop=\n";

/// A text, and what lies behind it in memory.
pub type Laid = (Vec<u8>, Vec<u8>);

pub fn whole(text: impl Into<Vec<u8>>) -> Laid {
    (text.into(), BEHIND.to_vec())
}

pub fn case(kind: &str, (text, behind): Laid) -> Case {
    Case {
        behind,
        ..Case::new(kind, text)
    }
}

/// The kinds of the fixed texts.
pub const FIXED: [&str; 9] = [
    COMBINATION,
    TRUE,
    WITHIN,
    FORM,
    RANGE,
    BOTH,
    TWO,
    HARMED,
    VERY_LONG,
];
pub const COMBINATION: &str = "combination";
const TRUE: &str = "answer";
pub const TWO: &str = "two faulty lines";
pub const HARMED: &str = "harmed";
const VERY_LONG: &str = "very long list";

/// A tour and a refusal to make others from.
fn models() -> [Answer; 2] {
    let tour = Answer {
        cost: 32,
        kept: 5,
        run_in: vec![0, 10],
        cycle: vec![127, 2, 30],
        ..Answer::default()
    };
    let refusal = Answer {
        number: 3,
        line: 12,
        ..Answer::default()
    };
    [tour, refusal]
}

/// Texts for every two buffers about the lengths of the lists: each number
/// that may be read with each choice of the others out of few, so that each
/// contradiction stands alone and beside each other one; and true answers.
pub fn buffer_texts() -> Vec<Case> {
    let mut all = Vec::new();
    for &(number, _) in ANSWERS {
        for line in [0, 1, MAX_LINE as u32] {
            for (cost, kept) in [(0, 0), (1, 0), (0, 1), (MAX_COST as u32, 255)] {
                for run_in in [vec![], vec![3]] {
                    for cycle in [vec![], vec![4], vec![127, 0]] {
                        let run_in = run_in.clone();
                        let answer = Answer {
                            number,
                            line,
                            cost,
                            kept,
                            run_in,
                            cycle,
                        };
                        all.push(case(COMBINATION, whole(answer.text())));
                    }
                }
            }
        }
    }
    all.push(case(TRUE, whole(OF_01)));
    all.extend(models().map(|answer| case(TRUE, whole(answer.text()))));
    for (run_in, cycle) in [(0, 128), (300, 1), (257, 700)] {
        let tour = tour_of(&mut Random::new(cycle as u64), run_in, cycle);
        all.push(case(TRUE, whole(tour.text())));
    }
    all
}

/// Texts for every block of up to 40 bytes, with what each comes to if the
/// buffers are long enough.
pub fn block_texts() -> Vec<Case> {
    let [tour, refusal] = models().map(|answer| answer.text());
    let doubled = refusal.replace("answer=3", "answer=10");
    let texts = [
        ("0, a tour", tour.clone()),
        ("0, a refusal", refusal.clone()),
        ("0, a doubled road", doubled.clone()),
        ("2", tour.replace("kept", "keep")),
        ("3", tour.replace("127", "128")),
        ("8, a tour", tour.replace("line=0", "line=1")),
        ("8, a refusal", refusal.replace("line=12", "line=0")),
        ("8, a doubled road", doubled.replace("line=12", "line=0")),
    ];
    texts
        .map(|(kind, text)| case(&format!("number {kind}"), whole(text)))
        .into()
}

/// Texts with every slip in every line, with two faulty lines, harmed at every
/// byte, and with very long lists.
pub fn fixed_texts() -> Vec<Case> {
    let mut all = Vec::new();
    for model in models() {
        let values = model.values();
        let slips: Vec<Vec<Slip>> = (0..6).map(|at| slips(at, &values[at])).collect();
        for (at, slips) in slips.iter().enumerate() {
            for (kind, line) in slips {
                all.push(case(kind, whole(with_lines(&model, &[(at, line)]))));
            }
        }
        for j in 0..6 {
            for i in 0..j {
                for (first, then) in pairs(&slips[i], &slips[j]) {
                    let text = with_lines(&model, &[(i, first), (j, then)]);
                    all.push(case(TWO, whole(text)));
                }
            }
        }
        let text = model.text();
        let harms = every_damage(text.as_bytes()).into_iter();
        let harms = harms.chain(every_byte(text.as_bytes()));
        all.extend(harms.map(|(_, text, behind)| case(HARMED, (text, behind))));
    }
    for text in very_long() {
        all.push(case(VERY_LONG, whole(text)));
    }
    all
}

/// The answer's text with these lines in the place of its own.
pub fn with_lines(answer: &Answer, others: &[(usize, &[u8])]) -> Vec<u8> {
    let mut lines: Vec<Vec<u8>> = answer.lines().into_iter().map(String::into_bytes).collect();
    for &(at, other) in others {
        lines[at] = other.to_vec();
    }
    lines.concat()
}

/// Two slips of each two kinds of fault.
fn pairs<'a>(one: &'a [Slip], other: &'a [Slip]) -> impl Iterator<Item = (&'a [u8], &'a [u8])> {
    let first = |slips: &'a [Slip], wanted| {
        let mut found = slips.iter().filter(move |(kind, _)| *kind == wanted);
        &found.next().expect("a slip of each kind").1[..]
    };
    let faults = [FORM, RANGE, BOTH];
    let both = move |a| faults.map(move |b| (first(one, a), first(other, b)));
    faults.into_iter().flat_map(both)
}

/// The text with each byte dropped, doubled and replaced, and with bytes before
/// and behind it.
fn every_byte(text: &[u8]) -> Vec<Harmed> {
    let mut all = Vec::new();
    let mut add = |kind, text| all.push((kind, text, BEHIND.to_vec()));
    for at in 0..text.len() {
        let (before, after) = (&text[..at], &text[at + 1..]);
        add("byte dropped", [before, after].concat());
        add("byte doubled", [&text[..=at], &text[at..]].concat());
        for other in b" \r\n,=01-x\0\xff" {
            add("byte replaced", [before, &[*other], after].concat());
        }
    }
    for more in [&b"\n"[..], b"\r", b" ", b"0", b"\0", b"loop=\n", text] {
        add("bytes before", [more, text].concat());
        add("bytes behind", [text, more].concat());
    }
    let returns = String::from_utf8_lossy(text).replace('\n', "\r\n");
    add("carriage returns", returns.into_bytes());
    all
}

/// Lists as long as `plantour` prints them at most, and longer than any buffer
/// it lends; then with a fault at the very end.
fn very_long() -> Vec<String> {
    let most = tour_of(&mut Random::new(7), MAX_RUN_IN, MAX_CYCLE).text();
    let more = tour_of(&mut Random::new(8), VERY_MANY, MAX_CYCLE + 1).text();
    let text = tour_of(&mut Random::new(9), 0, VERY_MANY).text();
    let mut all = vec![most, more, text];
    let text = tour_of(&mut Random::new(10), 5_000, 5_000).text();
    let text = text.trim_end();
    let ends = ["", ",128\n", ",\n", ",01\n", "\n\n"];
    all.extend(ends.map(|end| format!("{text}{end}")));
    all
}

/// A tour of so many places.
pub fn tour_of(random: &mut Random, run_in: usize, cycle: usize) -> Answer {
    let mut places = |count: usize| (0..count).map(|_| random.byte() & 127).collect();
    let (run_in, cycle) = (places(run_in), places(cycle));
    let cost = match random.below(8) {
        0 => 0,
        1 => MAX_COST as usize,
        _ => random.below(MAX_COST as usize + 1),
    };
    Answer {
        cost: cost as u32,
        kept: random.byte(),
        run_in,
        cycle,
        ..Answer::default()
    }
}
