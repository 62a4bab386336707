//! How long calls take, of two libraries by turns.

use crate::clock::processor_time;
use crate::library::Library;
use std::hint::black_box;

/// The least time of one call in each library, in microseconds.
#[derive(Clone, Copy, Debug, PartialEq)]
pub struct Times {
    pub reference: f64,
    pub library: f64,
}

impl Times {
    /// How often the reference's time the library's is.
    pub fn ratio(&self) -> f64 {
        self.library / self.reference
    }

    /// The least of both.
    pub fn least(&self, other: &Times) -> Times {
        Times {
            reference: self.reference.min(other.reference),
            library: self.library.min(other.library),
        }
    }
}

/// How often something is timed: at least so many runs of each library, at most so
/// many, and no more of them once they have taken so many microseconds.
#[derive(Clone, Copy, Debug)]
pub struct Effort {
    pub least: usize,
    pub most: usize,
    pub enough: f64,
}

/// A run has as many calls as take so many microseconds, so that asking for the
/// time hardly counts.
const RUN: f64 = 100.0;

/// Times the call of each library, run by run in turn.
pub fn by_turns(mut reference: impl FnMut(), mut library: impl FnMut(), effort: Effort) -> Times {
    let (of_reference, of_library) = (calls(&mut reference), calls(&mut library));
    let mut least = Times {
        reference: f64::INFINITY,
        library: f64::INFINITY,
    };
    let begin = processor_time();
    let spent = || processor_time() - begin;
    let mut done = 0;
    while done < effort.least || done < effort.most && spent() < effort.enough {
        least = least.least(&Times {
            reference: run(of_reference, &mut reference) / of_reference as f64,
            library: run(of_library, &mut library) / of_library as f64,
        });
        done += 1;
    }
    least
}

/// How many calls a run has.
fn calls(call: &mut impl FnMut()) -> usize {
    let mut calls = 1;
    while run(calls, call) < RUN {
        calls *= 2;
    }
    calls
}

/// The time of so many calls.
fn run(calls: usize, call: &mut impl FnMut()) -> f64 {
    let begin = processor_time();
    for _ in 0..calls {
        call();
    }
    processor_time() - begin
}

/// Times `plan_tour` of both libraries on a plan. Fails if they do not give the same
/// number, line, cost, kept and count.
pub fn time_both(
    file: &[u8],
    reference: Library,
    library: Library,
    effort: Effort,
) -> Result<Times, String> {
    let told = [reference, library].map(|one| answer(file, one));
    if told[0] != told[1] {
        return Err(format!("reference {:?}\nlibrary {:?}", told[0], told[1]));
    }
    Ok(by_turns(
        planner(file, reference),
        planner(file, library),
        effort,
    ))
}

/// What a call answers, but for the lengths of the tour, which are free.
fn answer(file: &[u8], library: Library) -> (u32, [u8; 12]) {
    let (mut block, mut run_in, mut cycle) = ([0; 16], [0; 2_048], [0; 20_480]);
    let number = (library.plan_tour)(file, &mut block, &mut run_in, &mut cycle);
    let fixed = block[..12].try_into().expect("twelve bytes");
    (number, fixed)
}

/// A call that may be repeated.
fn planner(file: &[u8], library: Library) -> impl FnMut() + '_ {
    let (mut block, mut run_in, mut cycle) = ([0; 16], [0; 2_048], [0; 20_480]);
    move || {
        (library.plan_tour)(black_box(file), &mut block, &mut run_in, &mut cycle);
        black_box((&block, &run_in, &cycle));
    }
}
