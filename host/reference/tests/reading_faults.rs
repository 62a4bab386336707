//! The comparison has teeth for `read_answer` too: libraries with one fault
//! each are found out by the fixed texts, and by the generated ones alone.

use reference::answers::{self, read, Answer, Block};
use reference::batches::batch;
use reference::cases::{case, Case};
use reference::harness::check;
use reference::library::{Library, ReadAnswer, REFERENCE};
use reference::reader::Refusal;
use reference::reading::{check_chance_text, check_text, check_text_blocks, check_text_buffers};
use reference::tally::Tally;
use reference::texts::{block_texts, buffer_texts, fixed_texts};
use std::sync::OnceLock;

type Check = fn(Library, &Case, &mut Tally) -> Result<(), String>;

/// The fixed texts, made once, with how each is put to a library.
fn fixed() -> &'static [(Vec<Case>, Check); 3] {
    static FIXED: OnceLock<[(Vec<Case>, Check); 3]> = OnceLock::new();
    FIXED.get_or_init(|| {
        [
            (block_texts(), check_text_blocks),
            (buffer_texts(), check_text_buffers),
            (fixed_texts(), check_text),
        ]
    })
}

/// The kind of the first fixed text to which the harness objects.
fn found_out(library: Library) -> Option<&'static str> {
    let mut tally = Tally::default();
    let mut all = fixed()
        .iter()
        .flat_map(|(cases, check)| cases.iter().map(move |case| (case, check)));
    let found = all.find(|(case, check)| check(library, case, &mut tally).is_err());
    found.map(|(case, _)| &case.kind[..])
}

/// The number of the first of 500 batches to which the harness objects.
fn found_out_by_chance(library: Library) -> Option<u64> {
    let mut tally = Tally::default();
    (0..500).find(|&number| {
        let (cases, mut random) = batch(number);
        let mut objects =
            |case: &Case| check_chance_text(library, case, &mut random, &mut tally).is_err();
        cases.iter().any(&mut objects)
    })
}

fn with(read_answer: ReadAnswer) -> Library {
    Library {
        read_answer,
        ..REFERENCE
    }
}

#[test]
fn the_reference_is_not_found_out() {
    assert_eq!(found_out(REFERENCE), None);
    assert_eq!(found_out_by_chance(REFERENCE), None);
}

/// Makes a test that a reader is found out.
macro_rules! fault {
    ($name:ident, $read_answer:expr) => {
        #[test]
        fn $name() {
            let faulty = with($read_answer);
            assert!(found_out(faulty).is_some());
            assert!(found_out_by_chance(faulty).is_some());
        }
    };
}

/// Fills the block as a refusal does.
fn refuse(block: &mut [u8], refusal: Refusal) -> u32 {
    let told = Block {
        number: refusal.number() as u8,
        fault: refusal.line(),
        ..Block::default()
    };
    block[..32].copy_from_slice(&told.bytes());
    refusal.number()
}

/// Fills block and buffers with an answer, whether or not it may be read.
fn give(answer: &Answer, block: &mut [u8], run_in: &mut [u8], cycle: &mut [u8]) -> u32 {
    let told = Block {
        kept: answer.kept,
        answer: answer.number,
        cost: answer.cost,
        line: answer.line,
        run_in: answer.run_in.len() as u64,
        cycle: answer.cycle.len() as u64,
        ..Block::default()
    };
    block[..32].copy_from_slice(&told.bytes());
    run_in[..answer.run_in.len()].copy_from_slice(&answer.run_in);
    cycle[..answer.cycle.len()].copy_from_slice(&answer.cycle);
    0
}

/// Gives an answer in which this contradiction is the only one.
fn let_through(
    text: &[u8],
    block: &mut [u8],
    run_in: &mut [u8],
    cycle: &mut [u8],
    overlooked: impl Fn(&Answer) -> bool,
) -> u32 {
    match answers::read_answer(text, block, run_in, cycle) {
        8 => match read(text) {
            Ok(answer) if overlooked(&answer) => give(&answer, block, run_in, cycle),
            _ => 8,
        },
        number => number,
    }
}

/// Reads the text after a change.
fn mended(
    text: &[u8],
    block: &mut [u8],
    run_in: &mut [u8],
    cycle: &mut [u8],
    change: impl Fn(&[u8]) -> Vec<u8>,
) -> u32 {
    answers::read_answer(&change(text), block, run_in, cycle)
}

/// The text with each stretch of digits changed.
fn numbers_changed(text: &[u8], change: impl Fn(&str) -> String) -> Vec<u8> {
    let mut changed = Vec::new();
    for part in text.chunk_by(|a, b| a.is_ascii_digit() == b.is_ascii_digit()) {
        match std::str::from_utf8(part) {
            Ok(digits) if part[0].is_ascii_digit() => changed.extend(change(digits).bytes()),
            _ => changed.extend(part),
        }
    }
    changed
}

fault!(gives_8_before_5, |text, block, run_in, cycle| {
    let number = answers::read_answer(text, block, run_in, cycle);
    match read(text) {
        Ok(answer) if number == 5 && answer.contradicts_itself() => {
            refuse(block, Refusal::Contradiction)
        }
        _ => number,
    }
});

fault!(
    gives_5_before_the_later_lines,
    |text, block, run_in, cycle| {
        let number = answers::read_answer(text, block, run_in, cycle);
        let fifth = text.split(|&byte| byte == b'\n').nth(4);
        let places = fifth.map_or(0, |line| line.split(|&byte| byte == b',').count());
        let beyond = |line| line > 5;
        match read(text) {
            Err(Refusal::Form { line } | Refusal::Range { line })
                if number != 7 && beyond(line) && places > run_in.len() + 1 =>
            {
                refuse(block, Refusal::Buffer)
            }
            _ => number,
        }
    }
);

fault!(
    lets_a_line_beside_4_through,
    |text, block, run_in, cycle| {
        let_through(text, block, run_in, cycle, |answer| {
            let without = Answer {
                line: 0,
                ..answer.clone()
            };
            answer.number == 4 && !without.contradicts_itself()
        })
    }
);

fault!(
    lets_a_line_beside_a_tour_through,
    |text, block, run_in, cycle| {
        let_through(text, block, run_in, cycle, |answer| {
            answer.number == 0 && !answer.cycle.is_empty()
        })
    }
);

fault!(lets_an_empty_loop_through, |text, block, run_in, cycle| {
    let_through(text, block, run_in, cycle, |answer| {
        answer.number == 0 && answer.line == 0
    })
});

fault!(
    lets_3_without_a_line_through,
    |text, block, run_in, cycle| {
        let_through(text, block, run_in, cycle, |answer| {
            let with = Answer {
                line: 1,
                ..answer.clone()
            };
            answer.number == 3 && !with.contradicts_itself()
        })
    }
);

fault!(
    lets_10_without_a_line_through,
    |text, block, run_in, cycle| {
        let_through(text, block, run_in, cycle, |answer| {
            let with = Answer {
                line: 1,
                ..answer.clone()
            };
            answer.number == 10 && !with.contradicts_itself()
        })
    }
);

fault!(wants_10_without_a_line, |text, block, run_in, cycle| {
    let number = answers::read_answer(text, block, run_in, cycle);
    match (number, read(text)) {
        (0, Ok(answer)) if answer.number == 10 => refuse(block, Refusal::Contradiction),
        _ => number,
    }
});

fault!(
    lets_a_tour_beside_10_through,
    |text, block, run_in, cycle| {
        let_through(text, block, run_in, cycle, |answer| {
            let bare = Answer {
                number: 10,
                line: answer.line,
                ..Answer::default()
            };
            answer.number == 10 && !bare.contradicts_itself()
        })
    }
);

fault!(loses_the_line_of_10, |text, block, run_in, cycle| {
    let number = answers::read_answer(text, block, run_in, cycle);
    if number == 0 && block[2] == 10 {
        block[12..16].fill(0);
    }
    number
});

fault!(
    lets_a_cost_beside_a_refusal_through,
    |text, block, run_in, cycle| {
        let_through(text, block, run_in, cycle, |answer| {
            let without = Answer {
                cost: 0,
                ..answer.clone()
            };
            answer.number != 0 && !without.contradicts_itself()
        })
    }
);

fault!(
    lets_kept_beside_a_refusal_through,
    |text, block, run_in, cycle| {
        let_through(text, block, run_in, cycle, |answer| {
            let without = Answer {
                kept: 0,
                ..answer.clone()
            };
            answer.number != 0 && !without.contradicts_itself()
        })
    }
);

fault!(
    lets_a_run_in_beside_a_refusal_through,
    |text, block, run_in, cycle| {
        let_through(text, block, run_in, cycle, |answer| {
            let without = Answer {
                run_in: Vec::new(),
                ..answer.clone()
            };
            answer.number != 0 && !without.contradicts_itself()
        })
    }
);

fault!(
    lets_a_loop_beside_a_refusal_through,
    |text, block, run_in, cycle| {
        let_through(text, block, run_in, cycle, |answer| {
            let without = Answer {
                cycle: Vec::new(),
                ..answer.clone()
            };
            answer.number != 0 && !without.contradicts_itself()
        })
    }
);

fault!(
    asks_a_tour_to_cost_something,
    |text, block, run_in, cycle| {
        match read(text) {
            Ok(answer) if answer.number == 0 && answer.cost == 0 && block.len() >= 32 => {
                refuse(block, Refusal::Contradiction)
            }
            _ => answers::read_answer(text, block, run_in, cycle),
        }
    }
);

fault!(reads_leading_zeros, |text, block, run_in, cycle| {
    mended(text, block, run_in, cycle, |text| {
        numbers_changed(text, |digits| match digits.trim_start_matches('0') {
            "" => "0".into(),
            rest => rest.into(),
        })
    })
});

fault!(reads_01, |text, block, run_in, cycle| {
    mended(text, block, run_in, cycle, |text| {
        numbers_changed(text, |digits| match digits {
            "01" => "1".into(),
            other => other.into(),
        })
    })
});

fault!(
    writes_the_run_in_before_it_refuses_5,
    |text, block, run_in, cycle| {
        let number = answers::read_answer(text, block, run_in, cycle);
        if let (5, Ok(answer)) = (number, read(text)) {
            for (own, place) in run_in.iter_mut().zip(answer.run_in) {
                *own = place;
            }
        }
        number
    }
);

fault!(
    writes_the_loop_before_it_refuses_8,
    |text, block, run_in, cycle| {
        let number = answers::read_answer(text, block, run_in, cycle);
        if let (8, Ok(answer)) = (number, read(text)) {
            cycle[..answer.cycle.len()].copy_from_slice(&answer.cycle);
        }
        number
    }
);

fault!(
    writes_the_run_in_as_it_reads,
    |text, block, run_in, cycle| {
        let number = answers::read_answer(text, block, run_in, cycle);
        let lines: Vec<&[u8]> = text
            .split_inclusive(|&byte| byte == b'\n')
            .take(5)
            .collect();
        let cut = [&lines.concat()[..], b"loop=\n"].concat();
        if let (2 | 3, Ok(answer)) = (number, read(&cut)) {
            for (own, place) in run_in.iter_mut().zip(answer.run_in) {
                *own = place;
            }
        }
        number
    }
);

fault!(tells_the_cost_on_a_refusal, |text, block, run_in, cycle| {
    let number = answers::read_answer(text, block, run_in, cycle);
    if let (5 | 8, Ok(answer)) = (number, read(text)) {
        block[8..12].copy_from_slice(&answer.cost.to_le_bytes());
    }
    number
});

fault!(tells_the_lengths_with_5, |text, block, run_in, cycle| {
    let number = answers::read_answer(text, block, run_in, cycle);
    if let (5, Ok(answer)) = (number, read(text)) {
        block[16..24].copy_from_slice(&(answer.run_in.len() as u64).to_le_bytes());
    }
    number
});

fault!(
    reads_a_text_without_its_last_newline,
    |text, block, run_in, cycle| {
        mended(text, block, run_in, cycle, |text| {
            let end: &[u8] = if text.ends_with(b"\n") { b"" } else { b"\n" };
            [text, end].concat()
        })
    }
);

fault!(
    overlooks_bytes_behind_the_last_line,
    |text, block, run_in, cycle| {
        mended(text, block, run_in, cycle, |text| {
            let lines = text.split_inclusive(|&byte| byte == b'\n').take(6);
            lines.collect::<Vec<_>>().concat()
        })
    }
);

fault!(
    names_line_6_for_bytes_behind,
    |text, block, run_in, cycle| {
        match answers::read_answer(text, block, run_in, cycle) {
            2 if block[4] == 7 => refuse(block, Refusal::Form { line: 6 }),
            number => number,
        }
    }
);

fault!(drops_carriage_returns, |text, block, run_in, cycle| {
    mended(text, block, run_in, cycle, |text| {
        text.iter().copied().filter(|&byte| byte != b'\r').collect()
    })
});

fault!(reads_a_comma_behind_a_list, |text, block, run_in, cycle| {
    mended(text, block, run_in, cycle, |text| {
        String::from_utf8_lossy(text).replace(",\n", "\n").into()
    })
});

fault!(reads_empty_entries, |text, block, run_in, cycle| {
    mended(text, block, run_in, cycle, |text| {
        String::from_utf8_lossy(text).replace(",,", ",").into()
    })
});

fault!(asks_for_a_run_in, |text, block, run_in, cycle| {
    let empty = text.windows(7).any(|part| part == b"runin=\n");
    match empty && block.len() >= 32 {
        true => refuse(block, Refusal::Form { line: 5 }),
        false => answers::read_answer(text, block, run_in, cycle),
    }
});

/// Reads numbers as the rest of a division, as a machine word does.
fn wrapped(text: &[u8], modulus: u128) -> Vec<u8> {
    numbers_changed(text, |digits| {
        let rest = digits.bytes().fold(0, |rest, digit| {
            (rest * 10 + (digit - b'0') as u128) % modulus
        });
        let leading_zero = digits.len() > 1 && digits.starts_with('0');
        match leading_zero {
            true => digits.into(),
            false => rest.to_string(),
        }
    })
}

fault!(loses_numbers_above_32_bits, |text, block, run_in, cycle| {
    mended(text, block, run_in, cycle, |text| wrapped(text, 1 << 32))
});

fault!(loses_numbers_above_64_bits, |text, block, run_in, cycle| {
    mended(text, block, run_in, cycle, |text| wrapped(text, 1 << 64))
});

fault!(
    has_no_form_for_numbers_of_many_digits,
    |text, block, run_in, cycle| {
        match answers::read_answer(text, block, run_in, cycle) {
            3 => {
                let many = text
                    .chunk_by(|a, b| a.is_ascii_digit() == b.is_ascii_digit())
                    .any(|part| part[0].is_ascii_digit() && part.len() > 20);
                let line = block[4] as u32;
                match many {
                    true => refuse(block, Refusal::Form { line }),
                    false => 3,
                }
            }
            number => number,
        }
    }
);

/// Reads a text in which one number stands for another.
macro_rules! off_by_one {
    ($name:ident, $key:expr, $from:expr, $to:expr) => {
        fault!($name, |text, block, run_in, cycle| {
            mended(text, block, run_in, cycle, |text| {
                let from = format!("{}={}\n", $key, $from);
                let to = format!("{}={}\n", $key, $to);
                let mut lines: Vec<&[u8]> = text.split_inclusive(|&byte| byte == b'\n').collect();
                for line in &mut lines {
                    if *line == from.as_bytes() {
                        *line = to.as_bytes();
                    }
                }
                lines.concat()
            })
        });
    };
}

off_by_one!(reads_7_as_an_answer, "answer", 7, 6);
off_by_one!(reads_9_as_an_answer, "answer", 9, 10);
off_by_one!(reads_11_as_an_answer, "answer", 11, 10);
off_by_one!(refuses_10_as_an_answer, "answer", 10, 11);
off_by_one!(reads_a_line_of_65536, "line", 65_536, 65_535);
off_by_one!(refuses_a_line_of_65535, "line", 65_535, 65_536);
off_by_one!(reads_a_cost_of_32000001, "cost", 32_000_001, 32_000_000);
off_by_one!(refuses_a_cost_of_32000000, "cost", 32_000_000, 32_000_001);
off_by_one!(reads_a_kept_of_256, "kept", 256, 255);
off_by_one!(refuses_a_kept_of_255, "kept", 255, 256);
/// The text with one place in the place of another.
fn places_changed(text: &[u8], from: &str, to: &str) -> Vec<u8> {
    let mut lines: Vec<Vec<u8>> = text
        .split_inclusive(|&byte| byte == b'\n')
        .map(<[u8]>::to_vec)
        .collect();
    for line in lines.iter_mut().skip(4) {
        *line = numbers_changed(line, |digits| {
            if digits == from { to } else { digits }.into()
        });
    }
    lines.concat()
}

fault!(reads_a_place_of_128, |text, block, run_in, cycle| {
    mended(text, block, run_in, cycle, |text| {
        places_changed(text, "128", "127")
    })
});

fault!(refuses_a_place_of_127, |text, block, run_in, cycle| {
    mended(text, block, run_in, cycle, |text| {
        places_changed(text, "127", "128")
    })
});

fault!(judges_range_before_form, |text, block, run_in, cycle| {
    let number = answers::read_answer(text, block, run_in, cycle);
    if number != 2 || !(5..=6).contains(&block[4]) {
        return number;
    }
    let line = block[4] as u32;
    let value = text.split(|&byte| byte == b'\n').nth(line as usize - 1);
    let entries = value.unwrap().split(|byte| b"=,".contains(byte)).skip(1);
    let large = |entry: &[u8]| {
        let text = std::str::from_utf8(entry).ok();
        text.and_then(|text| text.parse::<u128>().ok())
            .is_some_and(|value| value > 127)
    };
    match entries.into_iter().any(large) {
        true => refuse(block, Refusal::Range { line }),
        false => 2,
    }
});

fault!(takes_a_block_of_31_bytes, |text, block, run_in, cycle| {
    if block.len() != 31 {
        return answers::read_answer(text, block, run_in, cycle);
    }
    let mut longer = [block, &[0][..]].concat();
    let number = answers::read_answer(text, &mut longer, run_in, cycle);
    block.copy_from_slice(&longer[..31]);
    number
});

fault!(
    asks_for_a_block_of_33_bytes,
    |text, block, run_in, cycle| {
        match block.len() {
            32 => 7,
            _ => answers::read_answer(text, block, run_in, cycle),
        }
    }
);

fault!(clears_the_whole_block, |text, block, run_in, cycle| {
    let number = answers::read_answer(text, block, run_in, cycle);
    if number != 7 {
        block[32..].fill(0);
    }
    number
});

fault!(writes_7_into_a_short_block, |text, block, run_in, cycle| {
    let number = answers::read_answer(text, block, run_in, cycle);
    if let (7, Some(first)) = (number, block.first_mut()) {
        *first = 7;
    }
    number
});

fault!(
    clears_bytes_beyond_the_loop,
    |text, block, run_in, cycle| {
        let number = answers::read_answer(text, block, run_in, cycle);
        if number == 0 {
            let length = u64::from_le_bytes(block[24..32].try_into().unwrap());
            cycle[length as usize..].fill(0);
        }
        number
    }
);

fault!(
    clears_a_byte_beyond_the_run_in,
    |text, block, run_in, cycle| {
        let number = answers::read_answer(text, block, run_in, cycle);
        if number == 0 {
            let length = u64::from_le_bytes(block[16..24].try_into().unwrap());
            if let Some(next) = run_in.get_mut(length as usize) {
                *next = 0;
            }
        }
        number
    }
);

fault!(asks_for_one_byte_more, |text, block, run_in, cycle| {
    let less = cycle.len().saturating_sub(1);
    answers::read_answer(text, block, run_in, &mut cycle[..less])
});

fault!(
    overlooks_a_short_loop_buffer,
    |text, block, run_in, cycle| {
        let mut longer = [&cycle[..], &[0]].concat();
        let number = answers::read_answer(text, block, run_in, &mut longer);
        cycle.copy_from_slice(&longer[..cycle.len()]);
        number
    }
);

fault!(swaps_the_lists, |text, block, run_in, cycle| {
    let number = answers::read_answer(text, block, run_in, cycle);
    if number == 0 && block[16..24] == block[24..32] {
        let length = u64::from_le_bytes(block[16..24].try_into().unwrap()) as usize;
        run_in[..length].swap_with_slice(&mut cycle[..length]);
    }
    number
});

fault!(swaps_the_two_lines, |text, block, run_in, cycle| {
    let number = answers::read_answer(text, block, run_in, cycle);
    if number != 7 {
        let (before, after) = block.split_at_mut(12);
        before[4..8].swap_with_slice(&mut after[..4]);
    }
    number
});

fault!(
    tells_another_number_than_it_returns,
    |text, block, run_in, cycle| {
        let number = answers::read_answer(text, block, run_in, cycle);
        if number == 8 {
            block[0] = 5;
        }
        number
    }
);

/// Generated lists are shorter.
#[test]
fn loses_lengths_above_16_bits() {
    let faulty = with(|text, block, run_in, cycle| {
        let number = answers::read_answer(text, block, run_in, cycle);
        if number == 0 {
            block[18..24].fill(0);
            block[26..32].fill(0);
        }
        number
    });
    assert_eq!(found_out(faulty), Some("very long list"));
}

/// The planner's own answers, printed and read back, tell too.
#[test]
fn forgets_what_is_kept() {
    let faulty = with(|text, block, run_in, cycle| {
        let number = answers::read_answer(text, block, run_in, cycle);
        if number == 0 {
            block[1] = 0;
        }
        number
    });
    let mut tally = Tally::default();
    let objects = (0..100).any(|number| {
        let (case, mut random) = case(number);
        check(faulty, &case, &mut random, &mut tally).is_err()
    });
    assert!(objects);
}
