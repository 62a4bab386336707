//! Rules of weight 0, which only watch (02, note 5), for generated plans, and
//! plans with such rules whose answers were worked out by hand.

use crate::figures::{soft, x, Figure};
use crate::handmade::{silent, x_watching};
use crate::plan::{Plan, Soft};
use crate::random::Random;
use crate::rules::{again, never};

/// Makes some of the rules watch in one of four plans, and all of them in one of
/// twelve. The chance for it is taken aside, so that nothing else in a generated
/// case depends on it.
pub fn with_watchers(random: &Random, mut plan: Plan) -> Plan {
    let mut random = random.aside();
    let all = match random.below(12) {
        0 => true,
        1..=3 => false,
        _ => return plan,
    };
    let least = random.below(plan.soft.len().max(1));
    for (i, soft) in plan.soft.iter_mut().enumerate() {
        if all || i == least || random.once_in(2) {
            soft.weight = 0;
        }
    }
    plan
}

/// Plans over the map of plan X. Its tours meet mark 0 again and again, or mark
/// 1, or both; the labels of a run-in count for `never` alone.
pub fn hand_worked() -> Vec<Figure> {
    let planned = |name, soft: Vec<Soft>, cost, kept| {
        Figure::planned(name, Plan { soft, ..x() }, 0, cost, kept)
    };
    let (again_0, again_1) = (
        |weight| soft(weight, again(0)),
        |weight| soft(weight, again(1)),
    );
    let never_1 = |weight| soft(weight, never(1));
    let mut all = vec![
        // Case 4 of 01 with a rule that watches: before the others it decides.
        planned("before", vec![again_1(0), never_1(4), again_1(4)], 4, 5),
        planned("between", vec![never_1(4), again_1(0), again_1(4)], 4, 1),
        planned("behind", vec![never_1(4), again_1(4), again_1(0)], 4, 1),
        planned(
            "behind one kept by all",
            vec![again_0(3), again_1(0), never_1(4), again_1(4)],
            4,
            11,
        ),
        // Two that watch exclude each other: the first of them decides.
        planned("the first", vec![again_0(3), never_1(0), again_1(0)], 0, 3),
        planned("the other", vec![again_0(3), again_1(0), never_1(0)], 0, 3),
        planned("in front", vec![never_1(0), again_1(0), again_0(3)], 0, 5),
        // It decides at equal cost alone.
        planned("cost first", vec![again_1(0), never_1(1)], 0, 2),
        planned("no weight", vec![never_1(0), again_0(0), again_1(0)], 0, 3),
        planned(
            "no weight, again",
            vec![again_1(0), never_1(0), again_0(0)],
            0,
            5,
        ),
        planned("alone", vec![again_1(0)], 0, 1),
        planned("lost", vec![soft(0, silent())], 0, 0),
        planned("lost beside one", vec![soft(0, silent()), again_1(7)], 0, 2),
        Figure::planned("plan X, watching", x_watching(), 0, 0, 6),
    ];
    // The first weight line of plan X is line 20.
    let with = |line, number, at| {
        let file = x().text().replace("weight=3", line);
        Figure::refused(line, file.as_bytes(), number, at)
    };
    all.push(Figure {
        kept: 3,
        ..with("weight=0", 0, 0)
    });
    all.extend(["weight=00", "weight=-0", "weight="].map(|line| with(line, 2, 20)));
    all.extend(["weight=4000001", "weight=4294967296"].map(|line| with(line, 3, 20)));
    all
}
