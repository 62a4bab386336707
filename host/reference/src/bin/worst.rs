//! Searches generated plans for those that take the library longest beside the
//! reference, both in one process.
//!
//!     worst [--plans COUNT] [--first NUMBER]
//!     worst --write NUMBER FILE
//!
//! COUNT plans (10,000) from NUMBER (0) on, each fixed by its number: the shapes
//! of `bench` with N up to 2,048, maps of all sorts crossed with rules of all
//! sorts, and the good plans of `compare`. A plan's ratio is the library's time by
//! the reference's, each the least of a few runs by turns; those that look worst
//! are timed again before they are told. First come the ratios of each kind, the
//! ten worst plans next, then those among the plans that take the library more
//! than 20 microseconds, and more than 200. Ends with 1 if library and reference do
//! not answer alike.
//!
//! With --write no time is taken: the file becomes the plan with that number.

use reference::library::{LIBRARY, NAME, REFERENCE};
use reference::plan::Plan;
use reference::product::Product;
use reference::ranking::{confirm, worst, Found};
use reference::timing::{time_both, Effort, Times};
use reference::trials::{trial, Trial};
use std::collections::BTreeSet;
use std::process::exit;
use std::time::Instant;

/// A plan is timed by a few runs at first; plans of milliseconds by two.
const FIRST: Effort = Effort {
    least: 2,
    most: 8,
    enough: 4_000.0,
};

/// A plan that looks bad is timed in several rounds, since the machine may be slower
/// for some seconds.
const AGAIN: Effort = Effort {
    least: 4,
    most: 10,
    enough: 150_000.0,
};
const ROUNDS: usize = 3;

/// The plans that take the library more than each of these times are looked at by
/// themselves. So many of them are told, and so many are timed again for it; of
/// each kind one is told.
const FLOORS: [f64; 3] = [0.0, 20.0, 200.0];
const TOLD: usize = 10;
const SUSPECTS: usize = 40;
const SUSPECTS_OF_A_KIND: usize = 4;

const USAGE: &str = "usage: worst [--plans COUNT] [--first NUMBER]
       worst --write NUMBER FILE";

fn main() {
    let arguments: Vec<String> = std::env::args().skip(1).collect();
    let number = |text: &String| text.parse().ok();
    if let [write, of, file] = &arguments[..] {
        match number(of) {
            Some(of) if write == "--write" => return write_plan(of, file),
            _ => usage(),
        }
    }
    let (mut count, mut first) = (10_000, 0);
    for pair in arguments.chunks(2) {
        match (pair[0].as_str(), pair.get(1).and_then(number)) {
            ("--plans", Some(value)) if value > 0 => count = value,
            ("--first", Some(value)) => first = value,
            _ => usage(),
        }
    }
    if let Err(what) = search(first, count) {
        println!("worst: {NAME}: {what}");
        exit(1);
    }
}

fn usage() -> ! {
    eprintln!("{USAGE}");
    exit(2)
}

fn write_plan(number: u64, file: &str) {
    if let Err(what) = std::fs::write(file, trial(number).plan.text()) {
        eprintln!("worst: {file}: {what}");
        exit(1);
    }
}

fn search(first: u64, count: u64) -> Result<(), String> {
    println!("library: {NAME}; {count} plans from {first}; microseconds");
    let begin = Instant::now();
    let mut found = Vec::new();
    for number in first..first.saturating_add(count) {
        let Trial { kind, plan } = trial(number);
        found.push(Found {
            number,
            kind,
            size: plan.size(),
            times: timed(number, &plan, FIRST)?,
        });
    }
    let kinds: BTreeSet<String> = found.iter().map(kind).map(String::from).collect();
    let mut suspects = BTreeSet::new();
    for floor in FLOORS {
        suspects.extend(worst(&found, above(floor), SUSPECTS));
    }
    for name in &kinds {
        suspects.extend(worst(&found, |one| kind(one) == name, SUSPECTS_OF_A_KIND));
    }
    for _ in 0..ROUNDS {
        confirm(&mut found, &suspects, |one| {
            timed(one.number, &trial(one.number).plan, AGAIN)
        })?;
    }

    tell_kinds(&found, &kinds);
    let ratios = found.iter().map(|found| found.times.ratio());
    let counts = [1.0, 2.0, 4.0].map(|bound| ratios.clone().filter(|&r| r > bound).count());
    println!(
        "ratios above 1: {}, above 2: {}, above 4: {}",
        counts[0], counts[1], counts[2]
    );
    for floor in FLOORS {
        tell_worst(&found, floor);
    }
    println!(
        "\n{} plans were timed again; {} s",
        suspects.len(),
        begin.elapsed().as_secs()
    );
    Ok(())
}

fn timed(number: u64, plan: &Plan, effort: Effort) -> Result<Times, String> {
    let file = plan.text().into_bytes();
    let times = time_both(&file, REFERENCE, LIBRARY, effort);
    times.map_err(|what| format!("different answers to plan {number}\n{what}"))
}

/// The trials that take the library longer than that.
fn above(floor: f64) -> impl Fn(&Found) -> bool {
    move |found| found.times.library > floor
}

/// The kind of a trial; all that the comparison has are one.
fn kind(found: &Found) -> &str {
    found.kind.split(':').next().unwrap_or_default()
}

/// The heads of what `row` has.
const HEADS: &str = "  number     N reached     arcs  reference    library    ratio";

fn row(found: &Found) -> String {
    let product = Product::of(&trial(found.number).plan);
    format!(
        "{:>8} {:>5} {:>7} {:>8} {:>10.1} {:>10.1} {:>7.2}x",
        found.number,
        found.size,
        product.len(),
        product.arcs(),
        found.times.reference,
        found.times.library,
        found.times.ratio(),
    )
}

fn tell_kinds(found: &[Found], kinds: &BTreeSet<String>) {
    println!("of each kind the median ratio, and the worst plan");
    println!("{:10} {:>6} {:>8} {HEADS}", "kind", "plans", "median");
    for name in kinds {
        let all = worst(found, |one| kind(one) == name, found.len());
        let median = found[all[all.len() / 2]].times.ratio();
        let worst = row(&found[all[0]]);
        println!("{name:10} {:>6} {median:>7.2}x {worst}", all.len());
    }
}

fn tell_worst(found: &[Found], floor: f64) {
    if floor > 0.0 {
        println!("\nthe worst where the library takes more than {floor}");
    } else {
        println!("\nthe worst ratios");
    }
    println!("{HEADS}  kind");
    for at in worst(found, above(floor), TOLD) {
        println!("{}  {}", row(&found[at]), found[at].kind);
    }
}
