//! Holds the library against the reference on fixed and generated cases.
//!
//!     compare [--seconds S] [--first CASE] [--cases COUNT] [--bare] [--trace]
//!     compare --transcript COUNT [--first CASE]
//!
//! First come the figures of 01, plans with rules that only watch, with dead ends
//! and with roads that are written twice whose answers were worked out by hand,
//! where upcoming places begin for some hundred thousand lengths and steps, files
//! with buffers of every length about the limits, two plans harmed in every way
//! of some kinds, tours to check, and texts to read as answers; then cases in the
//! order of their numbers, from CASE (0 if not given) on, until S seconds (20)
//! of a processor have gone into these, whatever else the machine does, or COUNT
//! cases are done. A case is a plan, tours to check beside
//! it and a batch of texts to read, the same on every run. With --bare nothing
//! lies about the plan and the buffers: a checker of memory then sees each step
//! beyond them. With --trace each case is told before its first call. The first
//! difference is printed with its case and its plan or text, and the program
//! ends with 1; without one it ends with 0 after a tally. A run of 20 seconds
//! and more, not bounded by COUNT, goes on until it has met all that it should,
//! for eight times its seconds at most, and ends with 1 if something is missing
//! in the tally even then.
//!
//! With --transcript nothing is compared: what the library answers to the plans
//! of COUNT cases, from CASE on, is written down with its places, a line for
//! each. The lines depend on the library alone, so those of two versions of it
//! can be compared. At the end the standard error gets a line of how many plans
//! had which answers.

use reference::batches::batch;
use reference::cases::{case, harmed_cases, limit_cases, Case};
use reference::checker::BLOCK_BYTES;
use reference::checking::{
    check_beside_harm, check_blocks, check_by_hand, check_chance_tours, check_drawn,
    check_every_list, check_fixed_copy,
};
use reference::clock::processor_time;
use reference::figures::figures;
use reference::fixed_copies::fixed_copies;
use reference::fixed_parking::fixed_parking;
use reference::harness::{check, check_figure, check_limits, check_once};
use reference::library::{Library, LIBRARY, NAME};
use reference::reading::{check_chance_text, check_text, check_text_blocks, check_text_buffers};
use reference::serving::{check_case_9, check_offsets};
use reference::sketches::{block_tours, by_hand, long_tours, small_maps};
use reference::tally::Tally;
use reference::texts::{block_texts, buffer_texts, fixed_texts};
use reference::transcript::Transcript;
use reference::watchers::hand_worked;
use std::io::Write;
use std::process::exit;
use std::sync::Mutex;
use std::time::Duration;

struct Options {
    seconds: u64,
    first: u64,
    cases: u64,
    bare: bool,
    trace: bool,
    transcript: Option<u64>,
}

const USAGE: &str = "usage: compare [--seconds S] [--first CASE] [--cases COUNT] [--bare] [--trace]
       compare --transcript COUNT [--first CASE]";

/// From so many seconds on a run should meet everything.
const FULL: u64 = 20;

/// On a slow machine such a run goes on until it has met everything, but no longer than so many times its seconds.
const PATIENT: u64 = 8;

/// The case at work, for the watch.
static AT_WORK: Mutex<String> = Mutex::new(String::new());

/// So many bytes of a plan or text are printed at most.
const SHOWN: usize = 70_000;

/// A case that takes longer than this is taken for one without end.
const PATIENCE: Duration = Duration::from_secs(120);

fn main() {
    let options = options().unwrap_or_else(|what| {
        eprintln!("compare: {what}\n{USAGE}");
        exit(2)
    });
    if let Some(count) = options.transcript {
        return transcript(options.first, count).unwrap_or_else(|what| {
            eprintln!("compare: transcript: {what}");
            exit(1)
        });
    }
    std::thread::spawn(watch);
    let mut tally = Tally::default();

    options.put("figure 9 of 01", None, || check_case_9(LIBRARY));
    options.put("upcoming places", None, || {
        check_offsets(LIBRARY, &mut tally)
    });
    let of_01 = figures().into_iter().map(|figure| (figure, "01"));
    let of_note_5 = hand_worked().into_iter().map(|figure| (figure, "note 5"));
    let of_note_7 = fixed_parking().into_iter().map(|figure| (figure, "note 7"));
    for (figure, paper) in of_01.chain(of_note_5).chain(of_note_7) {
        let name = format!("figure {} of {paper}", figure.name);
        options.put(&name, Some(("plan", &figure.file)), || {
            check_figure(LIBRARY, &figure)
        });
    }
    for fixed in fixed_copies() {
        let name = format!("figure {} of note 6", fixed.figure.name);
        options.put(&name, Some(("plan", &fixed.figure.file)), || {
            check_fixed_copy(LIBRARY, &fixed)
        });
    }
    for case in limit_cases() {
        let (name, case) = (format!("limits of {}", case.kind), options.lay(case));
        options.put(&name, Some(("plan", &case.file)), || {
            check_limits(LIBRARY, &case, &mut tally)
        });
    }
    for case in harmed_cases() {
        let (name, case) = (case.kind.clone(), options.lay(case));
        options.put(&name, Some(("plan", &case.file)), || {
            check_once(LIBRARY, &case, &mut tally)?;
            check_beside_harm(LIBRARY, &case, &mut tally)
        });
    }
    options.put_drawn(&mut tally);
    let texts: [(_, TextCheck); 3] = [
        (block_texts(), check_text_blocks),
        (buffer_texts(), check_text_buffers),
        (fixed_texts(), check_text),
    ];
    for (cases, check) in texts {
        for case in cases {
            let (name, case) = (format!("text, {}", case.kind), options.lay(case));
            options.put(&name, Some(("text", &case.file)), || {
                check(LIBRARY, &case, &mut tally)
            });
        }
    }
    let end = options.first.saturating_add(options.cases);
    let mut number = options.first;
    let begin = processor_time();
    let passed = || (processor_time() - begin) / 1e6;
    let full = options.cases == u64::MAX && options.seconds >= FULL;
    let most = (PATIENT * options.seconds) as f64;
    while number < end
        && (passed() < options.seconds as f64
            || (full && passed() < most && !tally.lacks().is_empty()))
    {
        let (case, mut random) = case(number);
        let (name, case) = (format!("case {number}, {}", case.kind), options.lay(case));
        options.put(&name, Some(("plan", &case.file)), || {
            check(LIBRARY, &case, &mut random, &mut tally)?;
            check_chance_tours(LIBRARY, &case, &mut random, &mut tally)
        });
        let (texts, mut random) = batch(number);
        for text in texts {
            let (name, text) = (
                format!("case {number}, text, {}", text.kind),
                options.lay(text),
            );
            options.put(&name, Some(("text", &text.file)), || {
                check_chance_text(LIBRARY, &text, &mut random, &mut tally)
            });
        }
        number += 1;
    }

    println!("compare: {NAME}\n{tally}");
    let lacks = tally.lacks();
    if full && !lacks.is_empty() {
        println!("compare: never met: {}", lacks.join(", "));
        exit(1);
    }
    println!(
        "compare: no difference; {} generated cases from {}, in {} s",
        number - options.first,
        options.first,
        passed() as u64
    );
}

/// Writes down what the library answers to so many plans. Each line is out
/// before the next call, so that the last one shows how far it came.
fn transcript(first: u64, count: u64) -> std::io::Result<()> {
    let mut transcript = Transcript::default();
    let mut out = std::io::stdout().lock();
    for number in first..first.saturating_add(count) {
        writeln!(out, "{}", transcript.generated(LIBRARY, number))?;
        out.flush()?;
    }
    eprintln!("compare: transcript: {transcript}");
    Ok(())
}

type TextCheck = fn(Library, &Case, &mut Tally) -> Result<(), String>;

impl Options {
    fn lay(&self, case: Case) -> Case {
        if self.bare {
            case.bare()
        } else {
            case
        }
    }

    /// The fixed tours to check.
    fn put_drawn(&self, tally: &mut Tally) {
        for hand in by_hand() {
            let (name, text) = (format!("drawn tour, {}", hand.name), hand.plan.text());
            self.put(&name, Some(("plan", text.as_bytes())), || {
                check_by_hand(LIBRARY, &hand)
            });
        }
        for (case, drawn) in block_tours() {
            let (name, case) = (format!("drawn tour, {}", case.kind), self.lay(case));
            self.put(&name, Some(("plan", &case.file)), || {
                check_blocks(LIBRARY, &case, &drawn, tally)
            });
        }
        for map in small_maps() {
            let case = self.lay(Case::new(map.name, map.plan.text().into_bytes()));
            let name = format!("all lists beside {}", map.name);
            self.put(&name, Some(("plan", &case.file)), || {
                check_every_list(LIBRARY, &case, &map, tally)
            });
        }
        for (case, drawn) in long_tours() {
            let (name, case) = (case.kind.clone(), self.lay(case));
            self.put(&name, Some(("plan", &case.file)), || {
                check_drawn(LIBRARY, &case, &drawn, (BLOCK_BYTES, 0), tally).map(|_| ())
            });
        }
    }

    /// Ends the program at a difference. A file is given with what it is.
    fn put(
        &self,
        name: &str,
        file: Option<(&str, &[u8])>,
        check: impl FnOnce() -> Result<(), String>,
    ) {
        *AT_WORK.lock().unwrap() = name.into();
        if self.trace {
            eprintln!("{name}");
        }
        if let Err(what) = check() {
            println!("compare: {NAME}: difference at {name}\n{what}");
            if let Some((what, file)) = file {
                let shown = &file[..file.len().min(SHOWN)];
                let text = shown.escape_ascii().to_string().replace("\\n", "\n");
                println!("{what}, {} bytes:\n{text}", file.len());
            }
            exit(1)
        }
    }
}

/// Ends the program if one case stays at work.
fn watch() {
    let at_work = || AT_WORK.lock().unwrap().clone();
    let mut seen = at_work();
    loop {
        std::thread::sleep(PATIENCE);
        let now = at_work();
        if now == seen {
            println!(
                "compare: {NAME}: no end to {now} within {} s",
                PATIENCE.as_secs()
            );
            exit(1);
        }
        seen = now;
    }
}

fn options() -> Result<Options, String> {
    let mut options = Options {
        seconds: FULL,
        first: 0,
        cases: u64::MAX,
        bare: false,
        trace: false,
        transcript: None,
    };
    let mut names = Vec::new();
    let mut arguments = std::env::args().skip(1);
    while let Some(name) = arguments.next() {
        let mut value = || {
            let text = arguments.next().ok_or(format!("{name} lacks its number"))?;
            text.parse().map_err(|_| format!("{text} is no number"))
        };
        match name.as_str() {
            "--seconds" => options.seconds = value()?,
            "--first" => options.first = value()?,
            "--cases" => options.cases = value()?,
            "--bare" => options.bare = true,
            "--trace" => options.trace = true,
            "--transcript" => options.transcript = Some(value()?),
            _ => return Err(format!("{name} is unknown")),
        }
        names.push(name);
    }
    let other = |name: &&String| !["--transcript", "--first"].contains(&name.as_str());
    match names.iter().find(other) {
        Some(name) if options.transcript.is_some() => {
            Err(format!("{name} does not go with --transcript"))
        }
        _ => Ok(options),
    }
}
