//! The search for the worst ratio: its plans, how they are ranked, and what the
//! program tells.

use reference::plan::MAX_SIZE;
use reference::ranking::{confirm, worst, Found};
use reference::reader::read;
use reference::shapes::TIMED;
use reference::timing::Times;
use reference::trials::trial;
use std::collections::{BTreeMap, BTreeSet};
use std::process::Command;

#[test]
fn trials_are_good_plans_of_all_kinds() {
    let mut kinds: BTreeMap<String, usize> = BTreeMap::new();
    let (mut texts, mut near) = (BTreeSet::new(), 0);
    for number in 0..1_000 {
        let trial = trial(number);
        let text = trial.plan.text();
        assert_eq!(read(text.as_bytes()).as_ref(), Ok(&trial.plan), "{number}");
        near += (4 * trial.plan.size() > 3 * MAX_SIZE) as usize;
        texts.insert(text);
        let kind = trial.kind.split(':').next().unwrap();
        *kinds.entry(kind.into()).or_default() += 1;
    }
    let shapes = TIMED.map(|shape| (shape.name().into(), 50));
    let others = [("crossed".into(), 150), ("compared".into(), 200)];
    assert_eq!(kinds, BTreeMap::from_iter(shapes.into_iter().chain(others)));
    assert!(texts.len() > 950, "{}", texts.len());
    assert!((300..700).contains(&near), "{near}");
}

#[test]
fn of_the_comparison_come_plans_of_many_sorts() {
    let kinds: BTreeSet<String> = (0..1_000).map(|number| trial(number).kind).collect();
    for kind in [
        "tiny",
        "small",
        "tied",
        "watching",
        "wide",
        "dead end far away",
    ] {
        let kind = format!("compared: {kind}");
        assert!(kinds.contains(&kind), "{kind}");
    }
}

#[test]
fn a_number_always_gives_the_same_trial() {
    for number in [0, 10, 15, 19, 4_711, u64::MAX] {
        assert_eq!(trial(number).plan, trial(number).plan);
    }
}

fn found(number: u64, reference: f64, library: f64) -> Found {
    Found {
        number,
        kind: ["even", "odd"][number as usize % 2].into(),
        size: 18,
        times: Times { reference, library },
    }
}

#[test]
fn the_worst_come_first() {
    let all = [
        found(0, 10.0, 10.0),
        found(1, 10.0, 40.0),
        found(2, 1.0, 9.0),
        found(3, 100.0, 300.0),
        found(4, 30.0, 15.0),
    ];
    assert_eq!(worst(&all, |_| true, 3), [2, 1, 3]);
    assert_eq!(worst(&all, |one| one.times.library > 9.0, 10), [1, 3, 0, 4]);
    assert_eq!(worst(&all, |one| one.kind == "even", 10), [2, 0, 4]);
    assert_eq!(worst(&all, |_| false, 10), []);
    assert_eq!(worst(&[], |_| true, 10), []);
}

#[test]
fn what_is_timed_again_has_its_least_times() {
    let mut all = [
        found(0, 10.0, 90.0),
        found(1, 10.0, 40.0),
        found(2, 8.0, 8.0),
    ];
    let mut asked = Vec::new();
    let told = confirm(&mut all, &BTreeSet::from([0, 1]), |one| {
        asked.push(one.number);
        Ok(Times {
            reference: 9.0,
            library: 45.0,
        })
    });
    assert_eq!(told, Ok(()));
    assert_eq!(asked, [0, 1]);
    let after = [found(0, 9.0, 45.0), found(1, 9.0, 40.0), found(2, 8.0, 8.0)];
    assert_eq!(all, after);

    let told = confirm(&mut all, &BTreeSet::from([2]), |_| Err("other".into()));
    assert_eq!(told, Err("other".into()));
}

fn program(arguments: &[&str]) -> (bool, String) {
    let output = Command::new(env!("CARGO_BIN_EXE_worst"))
        .args(arguments)
        .output()
        .unwrap();
    let told = String::from_utf8(output.stdout).unwrap();
    (output.status.success(), told)
}

#[test]
fn the_program_tells_the_worst() {
    let (done, told) = program(&["--plans", "40", "--first", "20"]);
    assert!(done, "{told}");
    let (kinds, lists) = told.split_once("\nthe worst ratios\n").unwrap();
    for shape in TIMED {
        assert!(kinds.contains(&format!("\n{} ", shape.name())));
    }
    let (all, _) = lists.split_once("\nthe worst where").unwrap();
    let rows: Vec<Vec<&str>> = all
        .lines()
        .skip(1)
        .map(|row| row.split_whitespace().collect())
        .collect();
    assert_eq!(rows.len(), 10);
    for row in rows {
        let number: u64 = row[0].parse().unwrap();
        assert!((20..60).contains(&number));
        assert_eq!(row[1], trial(number).plan.size().to_string());
    }
}

#[test]
fn the_program_writes_the_plan_with_a_number() {
    let folder = std::path::Path::new(env!("CARGO_TARGET_TMPDIR"));
    for number in ["10", "14", "4719"] {
        let file = folder.join(format!("{number}.plan"));
        let (done, told) = program(&["--write", number, file.to_str().unwrap()]);
        assert!(done && told.is_empty());
        let text = std::fs::read_to_string(file).unwrap();
        assert_eq!(text, trial(number.parse().unwrap()).plan.text());
    }
}

#[test]
fn other_arguments_are_refused() {
    for arguments in [
        &["--plans"][..],
        &["--plans", "0"],
        &["--plans", "many"],
        &["--write", "many", "file"],
        &["--search", "10"],
    ] {
        assert!(!program(arguments).0, "{arguments:?}");
    }
}
