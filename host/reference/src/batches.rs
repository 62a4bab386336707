//! Generated texts to read as answers, in batches, each of which is fixed by its
//! number alone.

use crate::answers::{Answer, ANSWERS, LINES, MAX_LINE};
use crate::cases::Case;
use crate::damage::damage;
use crate::random::Random;
use crate::slips::{slips, BOTH, FORM, RANGE, WITHIN};
use crate::texts::{case, tour_of, whole, with_lines, Laid, COMBINATION, HARMED, TWO};

type Maker = fn(&mut Random) -> Laid;

/// The kinds of generated texts. A batch has one of each.
pub const GENERATED: [(&str, Maker); 17] = [
    ("short tour", |random| whole(short_tour(random).text())),
    ("long tour", |random| whole(long_tour(random).text())),
    ("refusal", |random| whole(refusal(random).text())),
    (COMBINATION, |random| whole(combination(random).text())),
    (WITHIN, |random| slipped(random, &[WITHIN])),
    (FORM, |random| slipped(random, &[FORM])),
    (RANGE, |random| slipped(random, &[RANGE])),
    (BOTH, |random| slipped(random, &[BOTH])),
    (TWO, two_faults),
    ("harmed list", list_harm),
    ("long list harmed at its end", end_harm),
    ("harmed byte", byte_harm),
    ("cut", cut),
    ("bytes behind the last line", with_more),
    ("number of very many digits", long_number),
    ("noise", noise),
    (HARMED, chance_harm),
];

/// The batch with this number, and the source of the further chances in it.
pub fn batch(number: u64) -> (Vec<Case>, Random) {
    let mut random = Random::new(number.wrapping_mul(0x5851_f42d_4c95_7f2d).wrapping_add(2));
    let cases = GENERATED
        .iter()
        .map(|(kind, make)| case(kind, make(&mut random)))
        .collect();
    (cases, random)
}

fn short_tour(random: &mut Random) -> Answer {
    let (run_in, cycle) = (random.below(8), random.between(1, 12));
    tour_of(random, run_in, cycle)
}

fn long_tour(random: &mut Random) -> Answer {
    let most = if random.once_in(40) { 5_000 } else { 60 };
    let (run_in, cycle) = (random.below(most), random.between(1, most));
    tour_of(random, run_in, cycle)
}

fn refusal(random: &mut Random) -> Answer {
    let refusals: Vec<(u8, bool)> = ANSWERS.iter().copied().filter(|a| a.0 != 0).collect();
    let &(number, carries) = random.pick(&refusals);
    let line = match random.below(3) {
        0 => random.between(1, 20),
        1 => MAX_LINE as usize,
        _ => random.between(1, MAX_LINE as usize),
    };
    Answer {
        number,
        line: if carries { line as u32 } else { 0 },
        ..Answer::default()
    }
}

fn tour_or_refusal(random: &mut Random) -> Answer {
    if random.once_in(3) {
        refusal(random)
    } else {
        short_tour(random)
    }
}

/// An answer with some of its numbers and lists from another one.
fn combination(random: &mut Random) -> Answer {
    let (mut answer, tour) = (tour_or_refusal(random), short_tour(random));
    let other = tour_or_refusal(random);
    for _ in 0..random.between(1, 2) {
        match random.below(7) {
            0 => answer.number = random.pick(ANSWERS).0,
            1 => answer.line = if answer.line == 0 { 1 } else { 0 },
            2 => answer.line = other.line,
            3 => answer.cost = tour.cost,
            4 => answer.kept = tour.kept,
            5 => answer.run_in = other.run_in.clone(),
            _ => answer.cycle = other.cycle.clone(),
        }
    }
    answer
}

/// A text with slips of these kinds, each in a line of its own.
fn slipped(random: &mut Random, kinds: &[&str]) -> Laid {
    let answer = tour_or_refusal(random);
    let values = answer.values();
    let mut order = [0, 1, 2, 3, 4, 5];
    random.shuffle(&mut order);
    let mut others = Vec::new();
    for (&at, wanted) in order.iter().zip(kinds) {
        let mut all = slips(at, &values[at]);
        all.retain(|(kind, _)| kind == wanted);
        others.push((at, all.swap_remove(random.below(all.len())).1));
    }
    let others: Vec<(usize, &[u8])> = others.iter().map(|(at, line)| (*at, &line[..])).collect();
    whole(with_lines(&answer, &others))
}

fn two_faults(random: &mut Random) -> Laid {
    let mut fault = || *random.pick(&[FORM, RANGE, BOTH]);
    let kinds = [fault(), fault()];
    slipped(random, &kinds)
}

/// A text with one list harmed at one place.
fn list_harm(random: &mut Random) -> Laid {
    let answer = long_tour(random);
    let at = random.between(4, 5);
    let value = &answer.values()[at];
    let mut entries: Vec<String> = value.split(',').map(String::from).collect();
    let entry = random.below(entries.len());
    let harms = [
        "", "0", "00", " ", "1\r", "+1", "1,", ",1", "127", "128", "255", "256", "1000",
    ];
    match random.below(4) {
        0 => entries[entry].insert(0, '0'),
        1 => entries[entry].push(*random.pick(&['0', '9', ' ', ',', ';', '\r', '\0'])),
        _ => entries[entry] = random.pick(&harms).to_string(),
    }
    let line = format!("{}={}\n", LINES[at].key, entries.join(","));
    whole(with_lines(&answer, &[(at, line.as_bytes())]))
}

/// A text with a long list that ends in a fault.
fn end_harm(random: &mut Random) -> Laid {
    let mut tour = long_tour(random);
    if random.once_in(2) {
        std::mem::swap(&mut tour.run_in, &mut tour.cycle);
    }
    let ends = [
        "", ",\n", ",128\n", ",01\n", ",,0\n", ",128,\n", ",0 \n", "\r\n", "\n\n",
    ];
    let end = random.pick(&ends);
    whole(format!("{}{end}", tour.text().trim_end()))
}

/// A text with one byte flipped, dropped, doubled or moved.
fn byte_harm(random: &mut Random) -> Laid {
    let mut text = tour_or_refusal(random).text().into_bytes();
    let (at, other) = (random.below(text.len()), random.below(text.len()));
    match random.below(4) {
        0 => text[at] ^= 1 << random.below(8),
        1 => drop(text.remove(at)),
        2 => text.insert(at, text[at]),
        _ => text.swap(at, other),
    }
    whole(text)
}

fn cut(random: &mut Random) -> Laid {
    let mut text = tour_or_refusal(random).text().into_bytes();
    let at = if random.once_in(4) {
        text.len() - 1
    } else {
        random.below(text.len())
    };
    let behind = text.split_off(at);
    (text, behind)
}

fn with_more(random: &mut Random) -> Laid {
    let text = tour_or_refusal(random).text();
    let more = [
        "\n",
        "0",
        "\0",
        " ",
        "\r\n",
        "loop=0\n",
        "answer=0\n",
        &text,
    ];
    whole(format!("{text}{}", random.pick(&more)))
}

/// A text with a number of up to some thousand digits.
fn long_number(random: &mut Random) -> Laid {
    let most = if random.once_in(4) { 5_000 } else { 400 };
    let number: String = (0..random.between(20, most))
        .map(|i| match (i, random.below(10)) {
            (0, 0) => '1',
            (_, digit) => (b'0' + digit as u8) as char,
        })
        .collect();
    let at = random.below(6);
    let value = if LINES[at].list && random.once_in(2) {
        format!("0,{number},1")
    } else {
        number
    };
    let line = format!("{}={value}\n", LINES[at].key);
    let answer = tour_or_refusal(random);
    whole(with_lines(&answer, &[(at, line.as_bytes())]))
}

/// Bytes by chance: any, or such as an answer has.
fn noise(random: &mut Random) -> Laid {
    let length = random.below(80);
    let any = random.once_in(2);
    let byte = |_| match any {
        true => random.byte(),
        false => *random.pick(b"answer=0\nline=0\ncost=0\nkept=0\nrunin=0,\nloop=1,2\n"),
    };
    whole((0..length).map(byte).collect::<Vec<u8>>())
}

/// A harm such as plans get.
fn chance_harm(random: &mut Random) -> Laid {
    let text = tour_or_refusal(random).text();
    let (_, text, behind) = damage(text.as_bytes(), random);
    (text, behind)
}
