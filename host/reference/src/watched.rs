//! What a comparison has met of rules of weight 0 (02, note 5), and what it
//! should have met.

use crate::plan::Plan;
use std::fmt;

/// How often each thing was met.
#[derive(Default)]
pub struct Watched {
    /// Plans with such a rule and one that weighs something, and plans with two
    /// rules or more that all are such.
    beside: usize,
    alone: usize,
    /// Tours answered that keep such a rule, and ones that do not keep one.
    kept: usize,
    lost: usize,
    /// Tours that such a rule alone makes better than another of the same cost:
    /// the first on which the two differ; those with a weight behind that rule,
    /// and those with one before it; those that are worse by the rules that weigh
    /// something.
    settled: usize,
    before: usize,
    behind: usize,
    against: usize,
}

impl Watched {
    pub fn plan(&mut self, plan: &Plan) {
        if plan.watching() != 0 {
            self.beside += (plan.weighing() != 0) as usize;
            self.alone += (plan.weighing() == 0 && plan.soft.len() > 1) as usize;
        }
    }

    /// An answer keeps `kept`, and other tours keep these.
    pub fn answer(&mut self, plan: &Plan, kept: u8, others: &[u8]) {
        let (watching, weighing) = (plan.watching(), plan.weighing());
        if watching == 0 {
            return;
        }
        self.kept += (watching & kept != 0) as usize;
        self.lost += (watching & !kept != 0) as usize;
        let lowest = |rules: u8| rules & rules.wrapping_neg();
        let [mut settled, mut before, mut behind, mut against] = [false; 4];
        for &other in others {
            let first = lowest(kept ^ other);
            if first & watching == 0 || plan.cost(kept) != plan.cost(other) {
                continue;
            }
            settled = true;
            before |= weighing > first;
            behind |= weighing & (first - 1) != 0;
            against |= lowest((kept ^ other) & weighing) & other != 0;
        }
        self.settled += settled as usize;
        self.before += before as usize;
        self.behind += behind as usize;
        self.against += against as usize;
    }

    /// What a run of some length should have met, and how often it did.
    pub fn due(&self) -> [(String, usize); 8] {
        [
            ("a plan with weight 0 and another", self.beside),
            (
                "a plan of two rules or more with weight 0 alone",
                self.alone,
            ),
            ("a rule of weight 0 kept", self.kept),
            ("a rule of weight 0 not kept", self.lost),
            ("a tie settled by a rule of weight 0", self.settled),
            ("such a tie with a weight behind that rule", self.before),
            ("such a tie with a weight before that rule", self.behind),
            (
                "such a tie that weights alone settle otherwise",
                self.against,
            ),
        ]
        .map(|(what, count)| (what.into(), count))
    }
}

impl fmt::Display for Watched {
    fn fmt(&self, f: &mut fmt::Formatter) -> fmt::Result {
        write!(
            f,
            "plans with weight 0 and another: {}; with weight 0 alone, twice or more: {}\n\
             tours that keep a rule of weight 0: {}, that do not keep one: {}; \
             ties that such a rule settles: {}, with a weight behind it {}, before it {}, \
             otherwise than weights alone {}",
            self.beside,
            self.alone,
            self.kept,
            self.lost,
            self.settled,
            self.before,
            self.behind,
            self.against
        )
    }
}
