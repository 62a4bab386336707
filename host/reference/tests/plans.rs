//! The example plans have the answers that their page tells.

use reference::entry::plan_tour;
use reference::plan::{Automaton, MAX_MOVES};
use reference::reader::read;
use reference::rules::go;
use std::collections::BTreeSet;
use std::path::Path;

#[test]
fn example_plans_are_answered_as_told() {
    let folder = Path::new(env!("CARGO_MANIFEST_DIR")).join("../../plans");
    let page = std::fs::read_to_string(folder.join("README.md")).unwrap();
    let mut rows = 0;
    for row in page.lines().filter(|line| line.contains(".plan |")) {
        let cells: Vec<&str> = row.split('|').map(str::trim).collect();
        let told: Vec<u32> = cells[2..5]
            .iter()
            .map(|cell| cell.parse().unwrap())
            .collect();
        let file = std::fs::read(folder.join(cells[1])).unwrap();
        let (mut block, mut run_in, mut cycle) = ([0; 16], [0; 2_048], [0; 20_480]);
        let number = plan_tour(&file, &mut block, &mut run_in, &mut cycle);
        let cost = u32::from_le_bytes(block[8..12].try_into().unwrap());
        assert_eq!(vec![number, cost, block[1] as u32], told, "{}", cells[1]);
        rows += 1;
    }
    let files = std::fs::read_dir(folder).unwrap().flatten();
    let plans = files
        .filter(|file| file.path().extension().is_some_and(|end| end == "plan"))
        .count();
    assert_eq!(rows, plans);
}

/// How many lines of four numbers it takes at least to say of each of these
/// labels, at most 32 of them, where the rule's states may go under it: any
/// lines that do so, not only those made from the rule's own.
fn least_fours(rule: &Automaton, labels: &[u8]) -> usize {
    let set = |fits: &dyn Fn(u8) -> bool| -> u32 {
        let all = labels.iter().enumerate();
        all.filter(|(_, &label)| fits(label))
            .fold(0, |set, (i, _)| set | 1 << i)
    };
    let guards = (0..=u8::MAX).flat_map(|need| (0..=u8::MAX).map(move |bar| go(0, need, bar, 0)));
    let sets: BTreeSet<u32> = guards.map(|m| set(&|label| m.fits(label))).collect();
    let least = |wanted: u32| {
        let useful: Vec<u32> = sets.iter().copied().filter(|s| s & !wanted == 0).collect();
        let mut covered = BTreeSet::from([0]);
        let mut lines = 0;
        while !covered.contains(&wanted) {
            let more = |&set: &u32| useful.iter().map(move |other| set | other);
            covered = covered.iter().flat_map(more).collect();
            lines += 1;
        }
        lines
    };
    let ends: BTreeSet<(u8, u8)> = rule.moves.iter().map(|m| (m.from, m.to)).collect();
    let between = |&(q, r): &(u8, u8)| {
        let moves = || rule.moves.iter().filter(|m| (m.from, m.to) == (q, r));
        least(set(&|label| moves().any(|m| m.fits(label))))
    };
    ends.iter().map(between).sum()
}

#[test]
fn heat_needs_lines_of_five_numbers() {
    let file = Path::new(env!("CARGO_MANIFEST_DIR")).join("../../plans/heat.plan");
    let plan = read(&std::fs::read(file).unwrap()).unwrap();
    assert_eq!(plan.hard.moves.len(), 43);
    // Neither for all labels nor for those on the map can fewer lines do.
    let all: Vec<u8> = (0..1 << plan.marks).collect();
    let on_the_map = Vec::from_iter(BTreeSet::from_iter(plan.labels));
    for labels in [all, on_the_map] {
        let least = least_fours(&plan.hard, &labels);
        assert_eq!(least, 71);
        assert!(least > MAX_MOVES as usize);
    }
}
