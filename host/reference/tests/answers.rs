//! Reading an answer back (02, note 2): the second reader's own cases, the
//! texts that the comparison makes, and its tally.

use reference::answers::{read, read_answer, Answer, Block, ANSWERS};
use reference::batches::{batch, GENERATED};
use reference::cases::Case;
use reference::library::REFERENCE;
use reference::reader::Refusal;
use reference::reading::{check_chance_text, check_read_back, check_text, check_text_buffers};
use reference::slips::{BOTH, FORM, RANGE, WITHIN};
use reference::tally::Tally;
use reference::texts::{block_texts, buffer_texts, fixed_texts, FIXED, OF_01, TWO};
use std::collections::BTreeSet;

const TOUR: &str = "answer=0\nline=0\ncost=32\nkept=5\nrunin=0,10\nloop=127,2,30\n";

const FILL: u8 = 0xa5;

/// Number, fault's line, and the answer itself if one was read, with buffers of
/// these lengths. Whatever else must hold of the bytes is looked at here.
fn call(text: &str, run_in: usize, cycle: usize) -> (u32, u32, Option<Answer>) {
    let mut block = [FILL; 40];
    let (mut first, mut then) = (vec![FILL; run_in], vec![FILL; cycle]);
    let number = read_answer(text.as_bytes(), &mut block, &mut first, &mut then);
    assert_eq!(block[32..], [FILL; 8]);
    assert_eq!((block[0] as u32, block[3]), (number, 0));
    let long = |at: usize| u32::from_le_bytes(block[at..at + 4].try_into().unwrap());
    let length = |at: usize| u64::from_le_bytes(block[at..at + 8].try_into().unwrap()) as usize;
    if number != 0 {
        assert_eq!(block[1..3], [0; 2]);
        assert_eq!(block[8..32], [0; 24]);
        assert!(first.iter().chain(&then).all(|&byte| byte == FILL));
        return (number, long(4), None);
    }
    let (run_in, cycle) = (length(16), length(24));
    assert!(first[run_in..].iter().all(|&byte| byte == FILL));
    assert!(then[cycle..].iter().all(|&byte| byte == FILL));
    let answer = Answer {
        number: block[2],
        line: long(12),
        cost: long(8),
        kept: block[1],
        run_in: first[..run_in].to_vec(),
        cycle: then[..cycle].to_vec(),
    };
    assert_eq!(answer.text(), text);
    (0, long(4), Some(answer))
}

fn refused(text: &str) -> (u32, u32) {
    let (number, line, _) = call(text, 200, 200);
    (number, line)
}

/// The text of a tour or a refusal with another line in the place of one.
fn with_line(text: &str, number: usize, line: &str) -> String {
    let mut lines: Vec<&str> = text.lines().collect();
    lines[number - 1] = line;
    lines.join("\n") + "\n"
}

#[test]
fn the_text_of_01() {
    let text = std::str::from_utf8(OF_01).unwrap();
    let given = Answer {
        number: 6,
        ..Answer::default()
    };
    assert_eq!(given.text(), text);
    assert_eq!(call(text, 0, 0), (0, 0, Some(given)));
}

#[test]
fn a_tour() {
    let given = Answer {
        number: 0,
        line: 0,
        cost: 32,
        kept: 5,
        run_in: vec![0, 10],
        cycle: vec![127, 2, 30],
    };
    assert_eq!(given.text(), TOUR);
    assert_eq!(call(TOUR, 2, 3), (0, 0, Some(given.clone())));
    assert_eq!(call(TOUR, 9, 9), (0, 0, Some(given)));
    assert!(refused(&TOUR.replace("0,10", "")).0 == 0);
}

#[test]
fn every_byte_of_the_block() {
    let text = "answer=3\nline=65535\ncost=0\nkept=0\nrunin=\nloop=\n";
    let mut block = [FILL; 33];
    assert_eq!(
        read_answer(text.as_bytes(), &mut block, &mut [], &mut []),
        0
    );
    let mut given = [0; 33];
    given[2] = 3;
    given[12..14].copy_from_slice(&[0xff, 0xff]);
    given[32] = FILL;
    assert_eq!(block, given);

    let text = "answer=0\nline=0\ncost=32000000\nkept=255\nrunin=1,2\nloop=3\n";
    let (mut run_in, mut cycle) = ([FILL; 3], [FILL; 3]);
    assert_eq!(
        read_answer(text.as_bytes(), &mut block, &mut run_in, &mut cycle),
        0
    );
    let mut given = [0; 33];
    given[1] = 255;
    given[8..12].copy_from_slice(&[0x00, 0x48, 0xe8, 0x01]);
    given[16] = 2;
    given[24] = 1;
    given[32] = FILL;
    assert_eq!(block, given);
    assert_eq!((run_in, cycle), ([1, 2, FILL], [3, FILL, FILL]));

    let text = text.replace("kept=255", "kept=256");
    assert_eq!(
        read_answer(text.as_bytes(), &mut block, &mut [], &mut []),
        3
    );
    let mut given = [0; 33];
    (given[0], given[4], given[32]) = (3, 4, FILL);
    assert_eq!(block, given);
}

#[test]
fn a_short_block_comes_first() {
    for text in [
        TOUR,
        "",
        "x",
        "answer=0\nline=1\ncost=0\nkept=0\nrunin=\nloop=\n",
    ] {
        for length in 0..32 {
            let (mut block, mut run_in, mut cycle) = (vec![FILL; length], [FILL; 9], [FILL; 9]);
            assert_eq!(
                read_answer(text.as_bytes(), &mut block, &mut run_in, &mut cycle),
                7
            );
            assert_eq!(
                (block, run_in, cycle),
                (vec![FILL; length], [FILL; 9], [FILL; 9])
            );
        }
    }
}

#[test]
fn lists_of_no_form() {
    let lists = [
        "0,,1", ",1", "1,", ",", "01", "0,00", "1, 2", " 1", "1 ", "+1", "-1", "1\r", "x", "1;2",
        "0,1,2,3,", "\0", "0x1",
    ];
    for list in lists {
        for (line, key) in [(5, "runin"), (6, "loop")] {
            let text = with_line(TOUR, line, &format!("{key}={list}"));
            assert_eq!(refused(&text), (2, line as u32), "{text:?}");
        }
    }
}

#[test]
fn numbers_of_no_form() {
    let numbers = [
        "", "00", "01", "+1", "-1", "-0", " 1", "1 ", "1\r", "1,", ",1", "1,2", "1.0", "x", "0x1",
        "1\0",
    ];
    for number in numbers {
        for (line, key) in [(1, "answer"), (2, "line"), (3, "cost"), (4, "kept")] {
            let text = with_line(TOUR, line, &format!("{key}={number}"));
            assert_eq!(refused(&text), (2, line as u32), "{text:?}");
        }
    }
}

#[test]
fn keys_of_no_form() {
    for (at, own) in TOUR.lines().enumerate() {
        let (key, value) = own.split_once('=').unwrap();
        let others = [
            String::new(),
            key.into(),
            value.into(),
            format!("{key}{value}"),
            format!(" {own}"),
            format!("{key} ={value}"),
            format!("{key}=={value}"),
            format!("{}={value}", key.to_uppercase()),
            format!("x{own}"),
            format!("{key}s={value}"),
            format!("\n{own}"),
            format!("tour={value}"),
        ];
        for other in others {
            let text = with_line(TOUR, at + 1, &other);
            assert_eq!(refused(&text), (2, at as u32 + 1), "{text:?}");
        }
    }
}

#[test]
fn missing_and_further_lines() {
    let lines: Vec<&str> = TOUR.split_inclusive('\n').collect();
    for count in 0..6 {
        let due = count as u32 + 1;
        assert_eq!(refused(&lines[..count].concat()), (2, due));
        let whole = lines[..=count].concat();
        assert_eq!(refused(whole.trim_end()), (2, due));
        let without = [&lines[..count], &lines[count + 1..]].concat();
        assert_eq!(refused(&without.concat()), (2, due));
        let twice = [&lines[..=count], &lines[count..]].concat();
        assert_eq!(refused(&twice.concat()), (2, due + 1));
    }
    for more in ["\n", "0", "\r", "\0", " ", "loop=\n", TOUR] {
        assert_eq!(refused(&format!("{TOUR}{more}")), (2, 7));
    }
    assert_eq!(refused(&TOUR.replace('\n', "\r\n")), (2, 1));
}

#[test]
fn ends_of_the_ranges() {
    let long = "9".repeat(300);
    let ends = [
        (1, "answer", "6", "7"),
        (1, "answer", "10", "9"),
        (1, "answer", "10", "11"),
        (2, "line", "65535", "65536"),
        (3, "cost", "32000000", "32000001"),
        (4, "kept", "255", "256"),
        (5, "runin", "127", "128"),
        (5, "runin", "0,127,1", "0,128,1"),
        (6, "loop", "127", "128"),
        (6, "loop", "0,127", "0,128"),
    ];
    for (line, key, within, beyond) in ends {
        let text = with_line(TOUR, line, &format!("{key}={within}"));
        assert!([0, 8].contains(&refused(&text).0), "{text:?}");
        for beyond in [beyond, &long, "4294967296", "18446744073709551616"] {
            let text = with_line(TOUR, line, &format!("{key}={beyond}"));
            assert_eq!(refused(&text), (3, line as u32), "{text:?}");
        }
    }
    for number in (7..300).filter(|number| *number != 10) {
        let text = with_line(TOUR, 1, &format!("answer={number}"));
        assert_eq!(refused(&text), (3, 1));
    }
}

#[test]
fn the_first_faulty_line_and_form_before_range() {
    let cases = [
        ("runin=128,01", (2, 5)),
        ("runin=128,", (2, 5)),
        ("runin=0,999 ", (2, 5)),
        ("runin=128", (3, 5)),
    ];
    for (line, given) in cases {
        assert_eq!(refused(&with_line(TOUR, 5, line)), given);
        let also_later = with_line(&with_line(TOUR, 5, line), 6, "loop=x");
        assert_eq!(refused(&also_later), given);
        let also_earlier = with_line(&with_line(TOUR, 5, line), 4, "kept=256");
        assert_eq!(refused(&also_earlier), (3, 4));
    }
    // The missing last byte is a fault of form.
    assert_eq!(refused("answer=7"), (2, 1));
    assert_eq!(refused(with_line(TOUR, 6, "loop=128").trim_end()), (2, 6));
}

#[test]
fn a_buffer_too_short_comes_behind_all_lines() {
    for (run_in, cycle) in [(1, 3), (2, 2), (0, 0), (0, 9), (9, 0)] {
        assert_eq!(call(TOUR, run_in, cycle), (5, 0, None));
        let text = with_line(TOUR, 6, "loop=127,2,128");
        assert_eq!(call(&text, run_in, cycle), (3, 6, None));
        assert_eq!(call(TOUR.trim_end(), run_in, cycle), (2, 6, None));
        assert_eq!(call(&format!("{TOUR}x"), run_in, cycle), (2, 7, None));
        // And before a contradiction.
        let text = with_line(TOUR, 2, "line=1");
        assert_eq!(call(&text, run_in, cycle), (5, 0, None));
        assert_eq!(call(&text, 2, 3), (8, 0, None));
    }
}

#[test]
fn each_contradiction_alone() {
    let tours = [("loop=127,2,30", "loop="), ("line=0", "line=1")];
    for (own, other) in tours {
        assert_eq!(refused(&TOUR.replace(own, other)), (8, 0));
    }
    for &(number, carries) in ANSWERS.iter().filter(|row| row.0 != 0) {
        let line = if carries { 12 } else { 0 };
        let good = format!("answer={number}\nline={line}\ncost=0\nkept=0\nrunin=\nloop=\n");
        assert_eq!(refused(&good), (0, 0));
        let others = [
            ("cost=0", "cost=1"),
            ("kept=0", "kept=1"),
            ("runin=", "runin=0"),
            ("loop=", "loop=0"),
            if carries {
                ("line=12", "line=0")
            } else {
                ("line=0", "line=1")
            },
        ];
        for (own, other) in others {
            assert_eq!(refused(&good.replace(own, other)), (8, 0), "{number}");
        }
    }
}

/// Of the numbers that 01 gives for a plan, 2 and 3 have a line, and so has 10 of
/// 02's note 6.
#[test]
fn the_table_of_answers() {
    let carriers: Vec<u8> = ANSWERS
        .iter()
        .filter(|row| row.1)
        .map(|row| row.0)
        .collect();
    assert_eq!(carriers, [2, 3, 10]);
    let numbers: Vec<u8> = ANSWERS.iter().map(|row| row.0).collect();
    assert_eq!(numbers, [0, 1, 2, 3, 4, 5, 6, 10]);
}

#[test]
fn the_answer_of_a_doubled_road() {
    let text = |number: u32, line: u32| {
        format!("answer={number}\nline={line}\ncost=0\nkept=0\nrunin=\nloop=\n")
    };
    for line in [1, 9, 65_535] {
        let given = Answer {
            number: 10,
            line,
            ..Answer::default()
        };
        assert_eq!(call(&text(10, line), 0, 0), (0, 0, Some(given)));
        // The numbers about it are never answers of a plan.
        for number in [7, 8, 9, 11, 12, 13, 100, 266] {
            assert_eq!(refused(&text(number, line)), (3, 1));
            assert_eq!(refused(&text(number, 0)), (3, 1));
        }
    }
    assert_eq!(refused(&text(10, 0)), (8, 0));
    assert_eq!(refused(&text(10, 65_536)), (3, 2));
    assert_eq!(refused(&text(10, 9).replace("=10", "=010")), (2, 1));
    // A list that its buffer does not hold comes before the contradiction.
    let listed = text(10, 0).replace("loop=", "loop=0,1");
    assert_eq!(call(&listed, 0, 1), (5, 0, None));
    assert_eq!(call(&listed, 0, 2), (8, 0, None));
}

#[test]
fn long_lists() {
    for length in [255, 256, 65_535, 65_536, 100_000] {
        let answer = Answer {
            run_in: (0..length).map(|i| (i % 128) as u8).collect(),
            cycle: (0..length + 1).map(|i| (i % 127) as u8).collect(),
            ..Answer::default()
        };
        let text = answer.text();
        assert_eq!(
            call(&text, length, length + 1),
            (0, 0, Some(answer.clone()))
        );
        assert_eq!(call(&text, length - 1, length + 1), (5, 0, None));
        assert_eq!(call(&text, length, length), (5, 0, None));
        assert_eq!(call(text.trim_end(), 0, 0), (2, 6, None));
    }
}

#[test]
fn the_block_as_bytes() {
    let block = Block {
        number: 1,
        kept: 2,
        answer: 3,
        fault: 0x0706_0504,
        cost: 0x0b0a_0908,
        line: 0x0f0e_0d0c,
        run_in: 0x1716_1514_1312_1110,
        cycle: 0x1f1e_1d1c_1b1a_1918,
    };
    let bytes = block.bytes();
    assert_eq!(bytes[..4], [1, 2, 3, 0]);
    assert!((4..32).all(|at| bytes[at] == at as u8));
}

/// What is read without a fault is printed as it was, and what is printed is
/// read as it was.
#[test]
fn round_trips() {
    let mut read_some = 0;
    for number in 0..200 {
        for case in batch(number).0 {
            if let Ok(answer) = read(&case.file) {
                assert_eq!(answer.text().as_bytes(), case.file);
                assert_eq!(read(answer.text().as_bytes()), Ok(answer));
                read_some += 1;
            }
        }
    }
    assert!(read_some > 200 * 4);
}

/// Each kind of slip is what its name says, in the line where it stands.
#[test]
fn fixed_texts_have_the_faults_they_are_made_for() {
    let mut met = BTreeSet::new();
    for case in fixed_texts() {
        let found = read(&case.file);
        let (form, range) = match found {
            Err(Refusal::Form { .. }) => (true, false),
            Err(Refusal::Range { .. }) => (false, true),
            _ => (false, false),
        };
        let as_named = match &case.kind[..] {
            WITHIN => !form && !range,
            FORM | BOTH => form,
            RANGE => range,
            TWO => form || range,
            _ => true,
        };
        assert!(
            as_named,
            "{}: {:?}",
            case.kind,
            case.file.escape_ascii().to_string()
        );
        met.insert(case.kind);
    }
    met.extend(buffer_texts().into_iter().map(|case| case.kind));
    assert_eq!(met, FIXED.map(String::from).into());
}

#[test]
fn block_texts_come_to_what_they_tell() {
    let mut met = BTreeSet::new();
    for case in block_texts() {
        let text = std::str::from_utf8(&case.file).unwrap();
        let (number, _) = refused(text);
        let told = format!("number {number}");
        assert!(case.kind.starts_with(&told), "{}: {number}", case.kind);
        met.insert(number);
    }
    assert_eq!(met, BTreeSet::from([0, 2, 3, 8]));
}

#[test]
fn a_batch_is_the_same_on_every_run_and_has_every_kind() {
    for number in [0, 1, 77] {
        let files = |(cases, _): (Vec<Case>, _)| -> Vec<Vec<u8>> {
            cases.into_iter().map(|case| case.file).collect()
        };
        assert_eq!(files(batch(number)), files(batch(number)));
        let kinds: Vec<String> = batch(number).0.into_iter().map(|case| case.kind).collect();
        assert_eq!(kinds, GENERATED.map(|(kind, _)| kind.to_string()));
    }
}

/// The texts by themselves bring all that a run should have met of reading.
#[test]
fn nothing_of_reading_is_lacking_after_some_batches() {
    let of_reading = |tally: &Tally| -> Vec<String> {
        let words = ["read_answer", "text", "read back", "behind 5"];
        let lacks = tally.lacks().into_iter();
        lacks
            .filter(|what| words.iter().any(|word| what.contains(word)))
            .collect()
    };
    let mut tally = Tally::default();
    let all = 6 + 7 + 6 + 1 + FIXED.len() + GENERATED.len() + 2 + 3;
    assert_eq!(of_reading(&tally).len(), all);
    for number in 0..100 {
        let (cases, mut random) = batch(number);
        for case in cases {
            check_chance_text(REFERENCE, &case, &mut random, &mut tally).unwrap();
        }
    }
    // The generated ones alone meet every number and every line.
    assert_eq!(of_reading(&tally).len(), FIXED.len() + 2);
    for case in buffer_texts() {
        check_text_buffers(REFERENCE, &case, &mut tally).unwrap();
    }
    for case in fixed_texts() {
        check_text(REFERENCE, &case.bare(), &mut tally).unwrap();
    }
    for text in [OF_01, TOUR.as_bytes()] {
        let answer = read(text).unwrap();
        for (margin, more) in [(64, 0), (64, 3), (0, 0)] {
            check_read_back(REFERENCE, &answer, margin, more, &mut tally).unwrap();
        }
    }
    assert_eq!(of_reading(&tally), Vec::<String>::new());
}
