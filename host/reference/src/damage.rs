//! Faulty files and texts, made from good ones. Some harms leave a file good;
//! what each file deserves, the reader says.

use crate::plan::MAX_PLAN_BYTES;
use crate::random::Random;
use std::ops::Range;

/// A harm's name, the harmed file, and the bytes to lie behind it in memory.
pub type Harmed = (&'static str, Vec<u8>, Vec<u8>);

const BEHIND: &[u8] = b"0,0\nmove=0,0,0,0\n";

/// All that one harm of some kinds makes of the file: a cut at each byte, each
/// bit flipped, each line dropped, each doubled, each two swapped, each number
/// raised by what a machine word loses, or very long, each move line and each
/// weight line with other numbers, and each road line once more.
pub fn every_damage(text: &[u8]) -> Vec<Harmed> {
    let mut all = Vec::new();
    for at in 0..text.len() {
        all.push(("cut", text[..at].to_vec(), text[at..].to_vec()));
    }
    let mut add = |kind, file| all.push((kind, file, BEHIND.to_vec()));
    for at in 0..text.len() {
        for bit in 0..8 {
            let mut file = text.to_vec();
            file[at] ^= 1 << bit;
            add("bit flipped", file);
        }
    }
    let whole = lines(text);
    for i in 0..whole.len() {
        let without = [&whole[..i], &whole[i + 1..]].concat();
        add("line dropped", without.concat());
        let twice = [&whole[..=i], &whole[i..]].concat();
        add("line doubled", twice.concat());
        for j in 0..i {
            let mut lines = whole.clone();
            lines.swap(i, j);
            add("lines swapped", lines.concat());
        }
    }
    for number in numbers(text) {
        let with = |new: String| {
            let (before, after) = (&text[..number.start], &text[number.end..]);
            [before, new.as_bytes(), after].concat()
        };
        for bits in [8, 16, 32, 64] {
            let raised = value(&text[number.clone()]) as u128 + (1 << bits);
            add("number raised", with(raised.to_string()));
        }
        add("number very long", with("9".repeat(300)));
    }
    for (i, line) in whole.iter().enumerate() {
        for (kind, other) in other_moves(line).into_iter().chain(other_weights(line)) {
            let mut lines = whole.clone();
            lines[i] = other;
            add(kind, lines.concat());
        }
    }
    let roads = with_key(&whole, ROAD);
    for &road in &roads {
        for &to in &roads {
            for (kind, lines) in [
                road_added(&whole, road, to),
                road_added(&whole, road, to + 1),
                road_replaced(&whole, road, to),
            ] {
                add(kind, lines.concat());
            }
        }
    }
    all
}

/// One harm by chance.
pub fn damage(text: &[u8], random: &mut Random) -> Harmed {
    let mut file = text.to_vec();
    let mut behind = BEHIND.to_vec();
    let at = random.below(file.len());
    let kind = match random.below(26) {
        0 => {
            file[at] ^= 1 << random.below(8);
            "bit flipped"
        }
        1 => {
            file[at] = *random.pick(b"0123456789,=\n\r \tabmz-+.\0\xff");
            "byte replaced"
        }
        2 => {
            file.insert(at, *random.pick(b"0123456789,=\n\r -+"));
            "byte added"
        }
        3 => {
            file.remove(at);
            "byte dropped"
        }
        4 => {
            // The rest of the good file stays in memory behind the cut.
            behind = file.split_off(at);
            "cut"
        }
        5 => {
            behind = file.split_off(file.len() - 1);
            "last byte cut"
        }
        6..=9 => harm_lines(&mut file, random),
        11..=14 => harm_number(&mut file, random),
        10 | 15 => harm_key(&mut file, random, WEIGHT, other_weights),
        16..=19 => harm_key(&mut file, random, MOVE, other_moves),
        20 => {
            let with_return = |&byte: &u8| {
                if byte == b'\n' {
                    vec![b'\r', b'\n']
                } else {
                    vec![byte]
                }
            };
            file = file.iter().flat_map(with_return).collect();
            "carriage returns"
        }
        21 => {
            let tails = ["\n", "0", "\0", "soft=1\n", "move=0,0,0,0\n"];
            file.extend(random.pick(&tails).bytes());
            "bytes behind the last line"
        }
        22 => {
            // Just within, just beyond and well beyond the length.
            let length = *random.pick(&[
                MAX_PLAN_BYTES - 1,
                MAX_PLAN_BYTES,
                MAX_PLAN_BYTES + 1,
                70_000,
            ]);
            let filler = if random.once_in(2) { file[at] } else { b'1' };
            let more = length.saturating_sub(file.len());
            file.splice(at..at, std::iter::repeat_n(filler, more));
            "stretched"
        }
        23 | 24 => harm_roads(&mut file, random),
        _ => {
            let length = random.below(40);
            file = (0..length)
                .map(|_| *random.pick(b"tour=1\nmarks0,"))
                .collect();
            "noise"
        }
    };
    (kind, file, behind)
}

/// The lines, each with its last byte.
pub fn lines(text: &[u8]) -> Vec<Vec<u8>> {
    text.split_inclusive(|&byte| byte == b'\n')
        .map(<[u8]>::to_vec)
        .collect()
}

/// Where the file's numbers stand.
fn numbers(text: &[u8]) -> Vec<Range<usize>> {
    let digit = |&i: &usize| text[i].is_ascii_digit();
    let starts = (1..text.len()).filter(|i| digit(i) && !digit(&(i - 1)));
    let end = |start| (start..text.len()).find(|i| !digit(i));
    starts
        .map(|start| start..end(start).unwrap_or(text.len()))
        .collect()
}

fn value(number: &[u8]) -> u64 {
    number
        .iter()
        .fold(0, |n, &byte| n * 10 + (byte - b'0') as u64)
}

/// Puts another line in the place of one with this key; if there is none, it
/// harms lines by chance.
fn harm_key(
    file: &mut Vec<u8>,
    random: &mut Random,
    key: &[u8],
    others: fn(&[u8]) -> Vec<Other>,
) -> &'static str {
    let mut lines = lines(file);
    let with_key = with_key(&lines, key);
    if with_key.is_empty() {
        return harm_lines(file, random);
    }
    let at = *random.pick(&with_key);
    let (kind, other) = random.pick(&others(&lines[at])).clone();
    lines[at] = other;
    *file = lines.concat();
    kind
}

/// Where the lines with this key stand.
fn with_key(lines: &[Vec<u8>], key: &[u8]) -> Vec<usize> {
    (0..lines.len())
        .filter(|&i| lines[i].starts_with(key))
        .collect()
}

/// Writes a road line once more, in addition or in the place of another; if there
/// is none, it harms lines by chance.
fn harm_roads(file: &mut Vec<u8>, random: &mut Random) -> &'static str {
    let lines = lines(file);
    let roads = with_key(&lines, ROAD);
    if roads.is_empty() {
        return harm_lines(file, random);
    }
    let (road, to) = (*random.pick(&roads), *random.pick(&roads));
    let (kind, lines) = match random.once_in(2) {
        true => road_added(&lines, road, to + random.below(2)),
        false => road_replaced(&lines, road, to),
    };
    *file = lines.concat();
    kind
}

/// The lines after a harm, and its name.
type OtherLines = (&'static str, Vec<Vec<u8>>);

/// The road line once more, before the line `to`, with the count of roads raised,
/// so that no line is one too many.
fn road_added(lines: &[Vec<u8>], road: usize, to: usize) -> OtherLines {
    let mut lines = lines.to_vec();
    lines.insert(to, lines[road].clone());
    for at in with_key(&lines, ROADS) {
        let count = numbers(&lines[at])[0].clone();
        let raised = value(&lines[at][count.clone()]) + 1;
        lines[at].splice(count, raised.to_string().into_bytes());
    }
    ("road line added", lines)
}

/// The road line once more, in the place of the line `to`.
fn road_replaced(lines: &[Vec<u8>], road: usize, to: usize) -> OtherLines {
    let mut lines = lines.to_vec();
    lines[to] = lines[road].clone();
    ("road line replaced", lines)
}

/// What is done to a line, and the line in its place.
type Other = (&'static str, Vec<u8>);

const ROADS: &[u8] = b"roads=";
const ROAD: &[u8] = b"road=";
const MOVE: &[u8] = b"move=";
const WEIGHT: &[u8] = b"weight=";

/// What may stand in the place of a weight line: 0 and what may be taken for it,
/// and numbers about the ends of its range. For any other line there is nothing.
fn other_weights(line: &[u8]) -> Vec<Other> {
    let all = [
        ("weight 0", "0"),
        ("weight at an end", "1"),
        ("weight at an end", "4000000"),
        ("weight out of range", "4000001"),
        ("weight out of range", "4294967296"),
        ("weight of no form", ""),
        ("weight of no form", "00"),
        ("weight of no form", "-0"),
        ("weight of no form", "+0"),
        ("weight of no form", "0,0"),
    ];
    match line.starts_with(WEIGHT) {
        true => all
            .map(|(kind, number)| (kind, [WEIGHT, number.as_bytes(), b"\n"].concat()))
            .to_vec(),
        false => Vec::new(),
    }
}

/// What may stand in the place of a move line: other counts of numbers, an any
/// about the ends of its range, and faults of form and of range in one line.
/// For any other line there is nothing.
fn other_moves(line: &[u8]) -> Vec<Other> {
    let text = line
        .strip_prefix(MOVE)
        .and_then(|text| text.strip_suffix(b"\n"));
    let text = text.and_then(|text| std::str::from_utf8(text).ok());
    let numbers: Vec<&str> = text.map_or(Vec::new(), |text| text.split(',').collect());
    let (q, need, bar, r) = match numbers[..] {
        [q, need, bar, r] | [q, need, bar, _, r] => (q, need, bar, r),
        _ => return Vec::new(),
    };
    let five = |any: &str| format!("{q},{need},{bar},{any},{r}");
    let ends = (1..=8).flat_map(|marks| [(1 << marks) - 1, 1 << marks]);
    let beyond = ["257", "65536", "4294967296", "18446744073709551616"];
    let mut all = vec![
        ("move of three numbers", format!("{q},{need},{bar}")),
        ("move of three numbers", format!("{q},{need},{r}")),
        ("move of four numbers", format!("{q},{need},{bar},{r}")),
        ("any 0", five("0")),
        ("any like need", five(need)),
        ("any like bar", five(bar)),
        ("move of six numbers", format!("{},0", five("0"))),
        ("move of six numbers", format!("{},{r}", five(need))),
        ("move of seven numbers", format!("{},0,0", five("0"))),
        ("move of seven numbers", format!("{},{bar},{r}", five(need))),
        ("any of no digit", five("")),
        ("any with a leading zero", five("00")),
        ("comma behind a move", format!("{q},{need},{bar},{r},")),
        ("comma behind a move", format!("{},", five("0"))),
        (
            "last of five out of range",
            format!("{q},{need},{bar},0,16"),
        ),
    ];
    all.extend(ends.map(|any: u32| ("any at an end", five(&any.to_string()))));
    all.extend(beyond.map(|any| ("any out of range", five(any))));
    for wrong in ["256", "4294967296"] {
        let form = [
            format!("{wrong},{need},{bar}"),
            format!("{wrong},{need},{bar},{r},"),
            format!("{wrong},{need},{bar},0,{r},0"),
            format!("{wrong},{need},{bar},0,0{r}"),
            format!("{q},{need},{bar},{wrong},"),
            format!("{q},{need},{bar},{wrong},x"),
            format!("{q},{need},{bar},{wrong},{r},0"),
            format!("{q},{need},{bar},{wrong},{r},0,0"),
            format!("{q},{need},{bar},0,{wrong}x"),
        ];
        all.extend(form.map(|line| ("move of no form, out of range", line)));
    }
    all.into_iter()
        .map(|(kind, numbers)| (kind, [MOVE, numbers.as_bytes(), b"\n"].concat()))
        .collect()
}

fn harm_lines(file: &mut Vec<u8>, random: &mut Random) -> &'static str {
    let mut lines = lines(file);
    let (i, j) = (random.below(lines.len()), random.below(lines.len()));
    let kind = match random.below(6) {
        0 => {
            lines.remove(i);
            "line dropped"
        }
        1 => {
            lines.insert(i, lines[i].clone());
            "line doubled"
        }
        2 => {
            lines.swap(i, j);
            "lines swapped"
        }
        3 => {
            lines.insert(i, b"\n".to_vec());
            "empty line added"
        }
        4 => {
            lines.truncate(i);
            "lines cut"
        }
        _ => {
            // Two faults, so that the earlier one must decide.
            lines[i].insert(0, b' ');
            lines[j].insert(0, b'x');
            "two lines harmed"
        }
    };
    *file = lines.concat();
    kind
}

/// Puts another text in the place of one of the file's numbers.
fn harm_number(file: &mut Vec<u8>, random: &mut Random) -> &'static str {
    let place = random.pick(&numbers(file)).clone();
    let old = value(&file[place.clone()]);
    let (kind, new) = match random.below(9) {
        0 => ("number one up", (old + 1).to_string()),
        1 => ("number one down", old.saturating_sub(1).to_string()),
        2 => {
            // About the ends of the ranges and of the machine's words.
            let ends: [u64; 22] = [
                0, 1, 2, 7, 8, 9, 15, 16, 17, 63, 64, 65, 127, 128, 129, 255, 256, 1_024, 1_025,
                65_536, 4_000_000, 4_000_001,
            ];
            ("number at an end", random.pick(&ends).to_string())
        }
        3 => {
            let huge = [
                "4294967296",
                "4294967297",
                "18446744073709551615",
                "18446744073709551616",
                "18446744073709551617",
            ];
            ("number huge", random.pick(&huge).to_string())
        }
        4 => {
            let digits = random.between(20, 300);
            (
                "number very long",
                (0..digits)
                    .map(|i| if i == 0 { '1' } else { '0' })
                    .collect(),
            )
        }
        5 => ("leading zero", format!("0{old}")),
        6 => ("number empty", String::new()),
        7 => (
            "number signed",
            format!("{}{old}", random.pick(&['+', '-', ' '])),
        ),
        _ => ("one value more", format!("{old},{old}")),
    };
    file.splice(place, new.into_bytes());
    kind
}
