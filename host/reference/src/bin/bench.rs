//! Times the library beside the reference, in one process, on plans of several
//! shapes.
//!
//!     bench [--plans COUNT] [--size N]
//!     bench --checks
//!     bench --write SHAPE NUMBER FILE
//!
//! For each shape, COUNT plans (9) with N near 2,048 or the number given; those of
//! the last shape are tiny. A table has the median and the worst time of a plan,
//! in microseconds, and how often the reference's time the library's is. A second
//! one has the plan of each shape for which that is worst: its ratio, its times
//! and its number. Then how the median grows with N, and the power of N by which it
//! does so from the third size to the last, and the size of a product of each
//! shape; last, the time of checking tours, the library's for each place too. With
//! --checks that alone.
//!
//! With --write no time is taken: the file becomes the plan of that shape with
//! that number, with N near 2,048. The tiny plan with number 0 is plan X.

use reference::components::components;
use reference::library::{Library, LIBRARY, NAME, REFERENCE};
use reference::loads::{loads, Load};
use reference::product::Product;
use reference::reader::read;
use reference::shapes::{numbered, Shape, TIMED};
use reference::timing::{by_turns, time_both, Effort, Times};
use std::hint::black_box;

/// How often a plan is planned by each, in turns, and how many times all plans are
/// gone through, since the machine may be slower for some seconds.
const OFTEN: Effort = Effort {
    least: 3,
    most: 20,
    enough: 10_000.0,
};
const PASSES: usize = 3;
/// How often where no single plan matters, and for tours to check.
const SELDOM: Effort = Effort {
    least: 3,
    most: 3,
    enough: 0.0,
};

fn main() {
    let (mut plans, mut size) = (9, 2_048);
    let arguments: Vec<String> = std::env::args().skip(1).collect();
    if let [write, shape, number, file] = &arguments[..] {
        if write == "--write" {
            return write_plan(shape, number, file);
        }
    }
    if arguments == ["--checks"] {
        return time_checks();
    }
    for pair in arguments.chunks(2) {
        match (
            pair[0].as_str(),
            pair.get(1).and_then(|text| text.parse::<u64>().ok()),
        ) {
            ("--plans", Some(value)) if value > 0 => plans = value,
            ("--size", Some(value)) if (64..=2_048).contains(&value) => size = value,
            _ => usage(),
        }
    }

    println!("library: {NAME}; {plans} plans of each shape; microseconds");
    let mut measured = TIMED.map(|shape| (shape, measure(shape, size, plans, OFTEN)));
    for _ in 1..PASSES {
        for (shape, measured) in &mut measured {
            measured.least(&measure(*shape, size, plans, OFTEN));
        }
    }
    tell_medians(&measured);
    tell_worst(&measured);
    tell_growth(plans);
    tell_products(size, plans);
    println!();
    time_checks();
}

fn tell_medians(measured: &[(Shape, Measured)]) {
    println!(
        "{:8} {:>5} {:>11} {:>11} {:>11} {:>11} {:>7} {:>7}",
        "shape", "N", "ref median", "ref worst", "lib median", "lib worst", "median", "worst"
    );
    for (shape, measured) in measured {
        let (reference, library) = (measured.of(|t| t.reference), measured.of(|t| t.library));
        println!(
            "{:8} {:>5} {:>11.1} {:>11.1} {:>11.1} {:>11.1} {:>6.2}x {:>6.2}x",
            shape.name(),
            measured.size,
            median(&reference),
            worst(&reference),
            median(&library),
            worst(&library),
            median(&library) / median(&reference),
            worst(&library) / worst(&reference),
        );
    }
}

fn tell_worst(measured: &[(Shape, Measured)]) {
    println!("\nof each shape the plan with the worst ratio");
    println!(
        "{:8} {:>6} {:>11} {:>11} {:>7}",
        "shape", "number", "reference", "library", "ratio"
    );
    for (shape, measured) in measured {
        let ratios = measured.of(Times::ratio);
        let number = (0..ratios.len())
            .max_by(|&one, &other| ratios[one].total_cmp(&ratios[other]))
            .expect("at least one plan");
        let times = &measured.times[number];
        println!(
            "{:8} {number:>6} {:>11.1} {:>11.1} {:>6.2}x",
            shape.name(),
            times.reference,
            times.library,
            times.ratio(),
        );
    }
}

fn tell_growth(plans: u64) {
    println!("\ngrowth with N: median of the library (of the reference)");
    for shape in TIMED.into_iter().filter(|&shape| shape != Shape::Tiny) {
        let mut row = format!("{:8}", shape.name());
        let mut medians = Vec::new();
        for size in [128, 256, 512, 1_024, 2_048] {
            let measured = measure(shape, size, plans.min(5), SELDOM);
            let library = median(&measured.of(|t| t.library));
            let reference = median(&measured.of(|t| t.reference));
            row += &format!(" {:>5}: {library:.0} ({reference:.0})", measured.size);
            medians.push((measured.size as f64, library));
        }
        let [_, _, (n, before), .., (last_n, last)] = medians[..] else {
            unreachable!()
        };
        println!(
            "{row}  power {:.2}",
            (last / before).log2() / (last_n / n).log2()
        );
    }
}

fn tell_products(size: u64, plans: u64) {
    println!("\nof each shape the product with the most arcs, as far as it is reached");
    println!(
        "{:8} {:>6} {:>9} {:>11}",
        "shape", "nodes", "arcs", "components"
    );
    for shape in TIMED {
        let product = (0..plans)
            .map(|number| Product::of(&numbered(shape, size, number)))
            .max_by_key(Product::arcs)
            .expect("at least one plan");
        let mut parts = components(&product);
        parts.sort_unstable();
        parts.dedup();
        println!(
            "{:8} {:>6} {:>9} {:>11}",
            shape.name(),
            product.len(),
            product.arcs(),
            parts.len()
        );
    }
}

fn time_checks() {
    println!("library: {NAME}; checking tours; microseconds");
    println!(
        "{:30} {:>7} {:>8} {:>10} {:>10} {:>9} {:>7}",
        "tour", "plan", "places", "reference", "library", "ns/place", "ratio"
    );
    for load in loads() {
        assert_eq!(checked(&load, REFERENCE), checked(&load, LIBRARY));
        let check = |library| {
            black_box(checked(black_box(&load), library));
        };
        let times = by_turns(|| check(REFERENCE), || check(LIBRARY), SELDOM);
        let places = load.run_in.len() + load.cycle.len();
        println!(
            "{:30} {:>7} {:>8} {:>10.1} {:>10.1} {:>9.1} {:>6.2}x",
            load.name,
            load.file.len(),
            places,
            times.reference,
            times.library,
            1e3 * times.library / places as f64,
            times.ratio(),
        );
    }
}

/// The block of a tour that is not refused.
fn checked(load: &Load, library: Library) -> [u8; 24] {
    let mut block = [0; 24];
    let number = (library.check_tour)(&load.file, &load.run_in, &load.cycle, &mut block);
    assert_eq!(number, 0, "{}", load.name);
    block
}

fn usage() -> ! {
    eprintln!("usage: bench [--plans COUNT] [--size N], N from 64 to 2048");
    eprintln!("       bench --checks");
    eprintln!("       bench --write SHAPE NUMBER FILE");
    std::process::exit(2)
}

fn write_plan(shape: &str, number: &str, file: &str) {
    let shape = TIMED.into_iter().find(|known| known.name() == shape);
    let (Some(shape), Ok(number)) = (shape, number.parse()) else {
        usage()
    };
    let plan = numbered(shape, 2_048, number);
    if let Err(what) = std::fs::write(file, plan.text()) {
        eprintln!("bench: {file}: {what}");
        std::process::exit(1);
    }
}

/// The times of each plan of one shape, and the median N.
struct Measured {
    size: u64,
    times: Vec<Times>,
}

impl Measured {
    fn of(&self, value: impl Fn(&Times) -> f64) -> Vec<f64> {
        self.times.iter().map(value).collect()
    }

    /// Keeps the least times of the same plans.
    fn least(&mut self, other: &Measured) {
        for (times, other) in self.times.iter_mut().zip(&other.times) {
            *times = times.least(other);
        }
    }
}

fn measure(shape: Shape, size: u64, plans: u64, effort: Effort) -> Measured {
    let (mut sizes, mut times) = (Vec::new(), Vec::new());
    for number in 0..plans {
        let plan = numbered(shape, size, number);
        let text = plan.text().into_bytes();
        assert_eq!(read(&text), Ok(plan.clone()));
        sizes.push(plan.size());
        let taken = time_both(&text, REFERENCE, LIBRARY, effort);
        times.push(taken.unwrap_or_else(|what| {
            println!(
                "bench: {NAME}: different answers to {} {number}\n{what}",
                shape.name()
            );
            std::process::exit(1)
        }));
    }
    sizes.sort_unstable();
    let size = sizes[sizes.len() / 2];
    Measured { size, times }
}

fn median(times: &[f64]) -> f64 {
    let mut times = times.to_vec();
    times.sort_by(f64::total_cmp);
    times[times.len() / 2]
}

fn worst(times: &[f64]) -> f64 {
    times.iter().copied().fold(0.0, f64::max)
}
