//! Transcripts tell answers with their places, and so tell libraries apart that
//! the comparison cannot.

use reference::cases::{case, Case};
use reference::entry::plan_tour;
use reference::figures::x;
use reference::handmade::{silent, x_under};
use reference::harness::{check, check_once};
use reference::library::{Library, PlanTour, LIBRARY, REFERENCE};
use reference::plan::Plan;
use reference::tally::Tally;
use reference::transcript::{checksum, Transcript};
use std::process::Command;

/// So many generated cases have each shape twice and all other kinds.
const CASES: u64 = 320;

fn with(plan_tour: PlanTour) -> Library {
    Library {
        plan_tour,
        ..REFERENCE
    }
}

fn case_of(plan: Plan) -> Case {
    Case::new("plan", plan.text().into_bytes())
}

/// The parts of the line of plan X: number, plan, number returned, block, run-in,
/// loop and lent bytes.
fn parts_of_x(library: Library) -> Vec<String> {
    let line = Transcript::default().line(library, 1, &case_of(x()), 0);
    line.split(' ').map(String::from).collect()
}

fn generated(library: Library, transcript: &mut Transcript) -> Vec<String> {
    (0..CASES)
        .map(|number| transcript.generated(library, number))
        .collect()
}

#[test]
fn checksums_are_those_of_fnv_1a() {
    assert_eq!(checksum(b""), 0xcbf2_9ce4_8422_2325);
    assert_eq!(checksum(b"a"), 0xaf63_dc4c_8601_ec8c);
    assert_eq!(checksum(b"foobar"), 0x8594_4171_f739_67e8);
}

#[test]
fn the_line_of_plan_x() {
    let line = Transcript::default().line(REFERENCE, 1, &case_of(x()), 0);
    let block = "00030200000000000000000001000200";
    assert_eq!(
        line,
        format!("1 50bf70a669a5f67b 0 {block} runin=0 loop=1,0 ffc5db1702564dc8")
    );
}

#[test]
fn a_refusal_has_no_places() {
    let line = Transcript::default().line(REFERENCE, 2, &case_of(x_under(silent())), 0);
    let block = "06000000000000000000000000000000";
    assert_eq!(
        line,
        format!("2 eff238312511f352 6 {block} runin= loop= e3f34a64ade040b2")
    );
}

/// Begins the loop one place later, if the run-in has room for one: the tour is
/// the same and so is its worth.
fn a_place_later(file: &[u8], answer: &mut [u8], run_in: &mut [u8], cycle: &mut [u8]) -> u32 {
    let number = plan_tour(file, answer, run_in, cycle);
    if number == 0 {
        let length = |at: usize| u16::from_le_bytes([answer[at], answer[at + 1]]);
        let (before, turn) = (length(12), length(14) as usize);
        if let Some(next) = run_in.get_mut(before as usize) {
            *next = cycle[0];
            cycle[..turn].rotate_left(1);
            answer[12..14].copy_from_slice(&(before + 1).to_le_bytes());
        }
    }
    number
}

#[test]
fn another_tour_of_the_same_worth_shows_here_alone() {
    let other = with(a_place_later);
    let parts = parts_of_x(other);
    assert_eq!(parts[3], "00030200000000000000000002000200");
    assert_eq!(parts[4..6], ["runin=0,1", "loop=0,1"]);

    let mut tally = Tally::default();
    assert_eq!(check_once(other, &case_of(x()), &mut tally), Ok(()));
    let (mut own, mut others) = (Transcript::default(), Transcript::default());
    let mut differ = 0;
    for number in (0..CASES).filter(|number| number % 16 != 14) {
        let (case, mut random) = case(number);
        assert_eq!(check(other, &case, &mut random, &mut tally), Ok(()));
        differ += (own.generated(REFERENCE, number) != others.generated(other, number)) as usize;
    }
    assert!(differ > 50, "{differ}");
}

#[test]
fn one_other_place_shows() {
    let parts = parts_of_x(with(|file, answer, run_in, cycle| {
        let number = plan_tour(file, answer, run_in, cycle);
        cycle[1] = 2;
        number
    }));
    assert_eq!(parts[..5], parts_of_x(REFERENCE)[..5]);
    assert_eq!(parts[5], "loop=1,2");
    assert_ne!(parts[6], parts_of_x(REFERENCE)[6]);
}

#[test]
fn one_byte_behind_the_tour_shows() {
    let faults: [PlanTour; 2] = [
        |file, answer, run_in, cycle| {
            let number = plan_tour(file, answer, run_in, cycle);
            *run_in.last_mut().unwrap() ^= 1;
            number
        },
        |file, answer, run_in, cycle| {
            let number = plan_tour(file, answer, run_in, cycle);
            cycle[2] ^= 1;
            number
        },
    ];
    for fault in faults {
        let parts = parts_of_x(with(fault));
        assert_eq!(parts[..6], parts_of_x(REFERENCE)[..6]);
        assert_ne!(parts[6], parts_of_x(REFERENCE)[6]);
    }
}

#[test]
fn lengths_beyond_the_buffers_are_written_down() {
    let parts = parts_of_x(with(|file, answer, run_in, cycle| {
        let number = plan_tour(file, answer, run_in, cycle);
        answer[12..16].fill(0xff);
        number
    }));
    assert!(parts[3].ends_with("ffffffff"));
    assert_eq!(parts[4].split(',').count(), 18);
    assert_eq!(parts[5].split(',').count(), 72);
}

#[test]
fn a_second_transcript_is_the_same() {
    let (mut one, mut other) = (Transcript::default(), Transcript::default());
    assert_eq!(
        generated(REFERENCE, &mut one),
        generated(REFERENCE, &mut other)
    );
    assert_eq!(one.to_string(), other.to_string());
    assert!(one.to_string().starts_with("320 plans, "));
}

#[test]
fn the_program_prints_the_lines_and_nothing_else() {
    let output = Command::new(env!("CARGO_BIN_EXE_compare"))
        .args(["--transcript", &CASES.to_string()])
        .output()
        .unwrap();
    assert!(output.status.success());
    let mut transcript = Transcript::default();
    let lines = generated(LIBRARY, &mut transcript);
    let printed = String::from_utf8(output.stdout).unwrap();
    assert_eq!(printed, lines.join("\n") + "\n");
    let told = String::from_utf8(output.stderr).unwrap();
    assert_eq!(told, format!("compare: transcript: {transcript}\n"));
}
