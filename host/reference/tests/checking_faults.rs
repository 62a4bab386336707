//! The comparison has teeth for `check_tour` too: libraries with one fault each
//! are found out by the fixed tours, and by the generated ones alone.

use reference::acceptance::Drive;
use reference::breaks::least_break;
use reference::cases::{case, Case};
use reference::causes::{causes, Cause};
use reference::checker::{self, check, tell, Worth};
use reference::checking::{
    check_beside_harm, check_blocks, check_by_hand, check_chance_tours, check_drawn,
    check_every_list,
};
use reference::drawn::Drawn;
use reference::harness;
use reference::library::{CheckTour, Library, REFERENCE};
use reference::plan::{Automaton, Move, Plan};
use reference::reader::{read, Refusal};
use reference::sketches::{block_tours, by_hand, long_tours, small_maps, SmallMap};
use reference::tally::Tally;
use std::sync::OnceLock;

/// The name of the first fixed tour of few places to which the harness objects.
fn found_out(library: Library) -> Option<String> {
    static MAPS: OnceLock<Vec<(Case, SmallMap)>> = OnceLock::new();
    let maps = MAPS.get_or_init(|| {
        let case = |map: &SmallMap| Case::new(map.name, map.plan.text().into_bytes());
        small_maps()
            .into_iter()
            .map(|map| (case(&map), map))
            .collect()
    });
    let mut tally = Tally::default();
    let hands = by_hand();
    let hand = hands
        .iter()
        .find(|hand| check_by_hand(library, hand).is_err());
    if let Some(hand) = hand {
        return Some(hand.name.into());
    }
    let blocks = block_tours();
    let block = blocks
        .iter()
        .find(|(case, drawn)| check_blocks(library, case, drawn, &mut tally).is_err());
    if let Some((case, _)) = block {
        return Some(case.kind.clone());
    }
    let map = maps
        .iter()
        .find(|(case, map)| check_every_list(library, case, map, &mut tally).is_err());
    map.map(|(_, map)| map.name.into())
}

/// The number of the first of 1,000 cases to whose tours the harness objects.
fn found_out_by_chance(library: Library) -> Option<u64> {
    let mut tally = Tally::default();
    (0..1_000)
        .filter(|number| number % 16 != 14)
        .find(|&number| {
            let (case, mut random) = case(number);
            check_chance_tours(library, &case, &mut random, &mut tally).is_err()
        })
}

/// Whether it is a long list to which the harness objects.
fn found_out_by_length(library: Library) -> bool {
    static LONG: OnceLock<Vec<(Case, Drawn)>> = OnceLock::new();
    let mut tally = Tally::default();
    let mut all = LONG.get_or_init(long_tours).iter();
    all.any(|(case, drawn)| check_drawn(library, case, drawn, (24, 0), &mut tally).is_err())
}

fn with(check_tour: CheckTour) -> Library {
    Library {
        check_tour,
        ..REFERENCE
    }
}

#[test]
fn the_reference_is_not_found_out() {
    assert_eq!(found_out(REFERENCE), None);
    assert_eq!(found_out_by_chance(REFERENCE), None);
    assert!(!found_out_by_length(REFERENCE));
}

/// Makes a test that a checker is found out.
macro_rules! fault {
    ($name:ident, $check_tour:expr) => {
        #[test]
        fn $name() {
            let faulty = with($check_tour);
            assert!(found_out(faulty).is_some());
            assert!(found_out_by_chance(faulty).is_some());
        }
    };
}

/// Answers as the reference does, but for one change of what it tells.
fn changed(
    (file, run_in, cycle): (&[u8], &[u8], &[u8]),
    block: &mut [u8],
    change: impl Fn(&Plan, Result<Worth, Refusal>) -> Result<Worth, Refusal>,
) -> u32 {
    let told = check(file, run_in, cycle);
    match read(file) {
        Ok(plan) => tell(change(&plan, told), block),
        Err(_) => tell(told, block),
    }
}

/// Gives another index wherever the tour breaks; with none it does not.
fn index_instead(
    (file, run_in, cycle): (&[u8], &[u8], &[u8]),
    block: &mut [u8],
    index: impl Fn(&Plan, u64) -> Option<u64>,
) -> u32 {
    changed((file, run_in, cycle), block, |plan, told| match told {
        Err(Refusal::Broken { index: own }) => match index(plan, own) {
            Some(index) => Err(Refusal::Broken { index }),
            None => Ok(worth_of(plan, plan, run_in, cycle)),
        },
        told => told,
    })
}

/// What these lists are worth, whether or not they are a tour, to the rules of
/// another plan with the same weights.
fn worth_of(plan: &Plan, other: &Plan, run_in: &[u8], cycle: &[u8]) -> Worth {
    let drive = Drive::new(other, run_in, cycle);
    let soft = other.soft.iter().enumerate();
    let kept = soft.fold(0, |kept, (i, soft)| {
        kept | (drive.accepted_by(&soft.rule) as u8) << i
    });
    Worth {
        accepted: drive.accepted_by(&other.hard),
        cost: plan.cost(kept),
        kept,
    }
}

/// Judges a tour by other automata than the plan's.
fn rules_instead(
    (file, run_in, cycle): (&[u8], &[u8], &[u8]),
    block: &mut [u8],
    other: impl Fn(&Plan, &Automaton, bool) -> Automaton,
) -> u32 {
    changed((file, run_in, cycle), block, |plan, told| {
        told?;
        let mut changed = plan.clone();
        changed.hard = other(plan, &plan.hard, false);
        for soft in &mut changed.soft {
            soft.rule = other(plan, &soft.rule, true);
        }
        Ok(worth_of(plan, &changed, run_in, cycle))
    })
}

/// The rule with the moves that are chosen for each state and each label on the
/// map, out of those that leave the state; each is told whether it fits.
fn by_label(
    plan: &Plan,
    rule: &Automaton,
    choose: impl Fn(&[(bool, Move)]) -> Vec<Move>,
) -> Automaton {
    let mut moves = Vec::new();
    for &label in &plan.labels {
        for state in 0..rule.states {
            let own = rule.moves.iter().filter(|m| m.from == state);
            let own: Vec<(bool, Move)> = own.map(|m| (m.fits(label), *m)).collect();
            moves.extend(choose(&own).into_iter().map(|m| Move {
                need: label,
                bar: !label,
                any: None,
                ..m
            }));
        }
    }
    Automaton {
        moves,
        ..rule.clone()
    }
}

fault!(overlooks_the_closing_road, |file, run_in, cycle, block| {
    index_instead((file, run_in, cycle), block, |_, index| {
        let closing = !cycle.is_empty() && index as usize == run_in.len() + cycle.len();
        (!closing).then_some(index)
    })
});

fault!(
    counts_an_accepting_state_of_the_run_in,
    |file, run_in, cycle, block| {
        rules_instead((file, run_in, cycle), block, |_, rule, _| {
            if rule.states > 8 {
                return rule.clone();
            }
            // The upper half of the states is for runs that have met one.
            let met = |state: u8| match rule.accepts(state) {
                true => state + rule.states,
                false => state,
            };
            let moves = rule.moves.iter().flat_map(|m| {
                let from = m.from + rule.states;
                let to = m.to + rule.states;
                let not_yet = Move {
                    to: met(m.to),
                    ..*m
                };
                [not_yet, Move { from, to, ..*m }]
            });
            Automaton {
                states: 2 * rule.states,
                first: met(rule.first),
                accept: ((1u32 << (2 * rule.states)) - (1 << rule.states)) as u16,
                moves: moves.collect(),
            }
        })
    }
);

fault!(
    gives_the_earlier_place_of_a_missing_road,
    |file, run_in, cycle, block| {
        index_instead((file, run_in, cycle), block, |plan, index| {
            let least = causes(plan, run_in, cycle).into_iter().min();
            match least.unwrap().1 {
                Cause::MissingRoad => Some(index - 1),
                _ => Some(index),
            }
        })
    }
);

fault!(skips_the_start_s_label, |file, run_in, cycle, block| {
    changed((file, run_in, cycle), block, |plan, told| {
        told?;
        let rest = match run_in {
            [] => &cycle[1..],
            _ => &run_in[1..],
        };
        Ok(worth_of(plan, plan, rest, cycle))
    })
});

fault!(
    follows_the_first_fitting_move,
    |file, run_in, cycle, block| {
        rules_instead((file, run_in, cycle), block, |plan, rule, _| {
            by_label(plan, rule, |moves| {
                let first = moves.iter().find(|(fits, _)| *fits);
                first.map(|(_, m)| *m).into_iter().collect()
            })
        })
    }
);

fault!(
    enters_the_ditch_while_a_move_fits,
    |file, run_in, cycle, block| {
        rules_instead((file, run_in, cycle), block, |plan, rule, soft| {
            by_label(plan, rule, |moves| {
                let fitting = moves.iter().filter(|(fits, _)| *fits);
                let fitting: Vec<Move> = fitting.map(|(_, m)| *m).collect();
                match soft && fitting.len() < moves.len() {
                    true => Vec::new(),
                    false => fitting,
                }
            })
        })
    }
);

fault!(
    wants_the_state_back_after_one_turn,
    |file, run_in, cycle, block| {
        changed((file, run_in, cycle), block, |plan, told| {
            let told = told?;
            // A rule none of whose states comes back after one turn is lost.
            let one_turn = |rule: &Automaton, accepted: bool| {
                let back = |state: u8| {
                    let mut states = 1u32 << state;
                    for &place in cycle {
                        let label = plan.labels[place as usize];
                        let fitting = rule.moves.iter().filter(|m| m.fits(label));
                        let from = fitting.filter(|m| states >> m.from & 1 == 1);
                        states = from.fold(0, |all, m| all | 1 << m.to);
                    }
                    states >> state & 1 == 1
                };
                accepted && (0..rule.states).any(back)
            };
            let soft = plan.soft.iter().enumerate();
            let kept = soft.fold(0, |kept, (i, soft)| {
                kept | (one_turn(&soft.rule, told.kept >> i & 1 == 1) as u8) << i
            });
            Ok(Worth {
                accepted: one_turn(&plan.hard, told.accepted),
                cost: plan.cost(kept),
                kept,
            })
        })
    }
);

fault!(
    gives_0_for_every_empty_loop,
    |file, run_in, cycle, block| {
        index_instead((file, run_in, cycle), block, |_, index| {
            let empty = cycle.is_empty() && index as usize == run_in.len();
            Some(if empty { 0 } else { index })
        })
    }
);

fault!(gives_the_greatest_index, |file, run_in, cycle, block| {
    index_instead((file, run_in, cycle), block, |plan, _| {
        let all = causes(plan, run_in, cycle).into_iter();
        all.map(|(index, _)| index).max()
    })
});

fault!(
    looks_for_unknown_places_first,
    |file, run_in, cycle, block| {
        index_instead((file, run_in, cycle), block, |plan, index| {
            let mut all = causes(plan, run_in, cycle).into_iter();
            let unknown = all.find(|(_, cause)| *cause == Cause::UnknownPlace);
            Some(unknown.map_or(index, |(index, _)| index))
        })
    }
);

fault!(
    looks_at_the_start_of_a_run_in_only,
    |file, run_in, cycle, block| {
        index_instead((file, run_in, cycle), block, |plan, index| {
            match (run_in, cycle) {
                ([], [first, ..]) if (*first as usize) < plan.labels.len() => {
                    let start = *first;
                    let other = Plan {
                        start,
                        ..plan.clone()
                    };
                    least_break(&other, run_in, cycle)
                }
                _ => Some(index),
            }
        })
    }
);

fault!(
    overlooks_the_road_to_the_loop,
    |file, run_in, cycle, block| {
        index_instead((file, run_in, cycle), block, |plan, index| {
            let (Some(&last), Some(&first)) = (run_in.last(), cycle.first()) else {
                return Some(index);
            };
            let known = |place: u8| (place as usize) < plan.labels.len();
            if !known(last) || !known(first) {
                return Some(index);
            }
            let mut other = plan.clone();
            other.roads.push((last, first));
            least_break(&other, run_in, cycle)
        })
    }
);

fault!(
    counts_the_loop_s_places_from_0,
    |file, run_in, cycle, block| {
        index_instead((file, run_in, cycle), block, |_, index| {
            Some(index.checked_sub(run_in.len() as u64).unwrap_or(index))
        })
    }
);

fault!(drives_roads_both_ways, |file, run_in, cycle, block| {
    index_instead((file, run_in, cycle), block, |plan, _| {
        let mut other = plan.clone();
        other.roads.extend(plan.roads.iter().map(|&(a, b)| (b, a)));
        least_break(&other, run_in, cycle)
    })
});

fault!(
    closes_the_loop_to_the_start,
    |file, run_in, cycle, block| {
        changed((file, run_in, cycle), block, |plan, told| match told {
            Ok(_) if !plan.joined(*cycle.last().unwrap(), plan.start) => {
                let index = (run_in.len() + cycle.len()) as u64;
                Err(Refusal::Broken { index })
            }
            told => told,
        })
    }
);

fault!(
    gives_the_loop_s_first_place_for_its_closing_road,
    |file, run_in, cycle, block| {
        index_instead((file, run_in, cycle), block, |_, index| {
            let closing = !cycle.is_empty() && index as usize == run_in.len() + cycle.len();
            Some(if closing { run_in.len() as u64 } else { index })
        })
    }
);

fault!(
    takes_empty_lists_for_a_tour,
    |file, run_in, cycle, block| {
        index_instead((file, run_in, cycle), block, |_, index| {
            (!run_in.is_empty() || !cycle.is_empty()).then_some(index)
        })
    }
);

fault!(loses_bit_7_of_a_place, |file, run_in, cycle, block| {
    let low = |places: &[u8]| -> Vec<u8> { places.iter().map(|place| place & 127).collect() };
    checker::check_tour(file, &low(run_in), &low(cycle), block)
});

fault!(reverses_the_kept_bits, |file, run_in, cycle, block| {
    changed((file, run_in, cycle), block, |plan, told| {
        let told = told?;
        let lowest = 8 - plan.soft.len().max(1);
        let kept = told.kept.reverse_bits() >> lowest;
        Ok(Worth { kept, ..told })
    })
});

fault!(adds_up_the_rules_kept, |file, run_in, cycle, block| {
    changed((file, run_in, cycle), block, |plan, told| {
        let told = told?;
        let cost = plan.cost(!told.kept);
        Ok(Worth { cost, ..told })
    })
});

fault!(
    refuses_what_is_not_accepted,
    |file, run_in, cycle, block| {
        changed((file, run_in, cycle), block, |_, told| match told {
            Ok(worth) if !worth.accepted => Err(Refusal::NoTour),
            told => told,
        })
    }
);

fault!(
    gives_no_cost_for_what_is_not_accepted,
    |file, run_in, cycle, block| {
        changed((file, run_in, cycle), block, |_, told| match told {
            Ok(worth) if !worth.accepted => Ok(Worth {
                accepted: false,
                cost: 0,
                kept: 0,
            }),
            told => told,
        })
    }
);

fault!(accepts_every_tour, |file, run_in, cycle, block| {
    changed((file, run_in, cycle), block, |_, told| {
        told.map(|worth| Worth {
            accepted: true,
            ..worth
        })
    })
});

fault!(gives_9_before_4, |file, run_in, cycle, block| {
    match check(file, run_in, cycle) {
        Err(Refusal::TooLarge) if cycle.is_empty() || cycle == [0, 1] => {
            let index = run_in.len() as u64;
            tell(Err(Refusal::Broken { index }), block)
        }
        told => tell(told, block),
    }
});

fault!(gives_9_before_the_lines, |file, run_in, cycle, block| {
    match check(file, run_in, cycle) {
        Err(Refusal::Range { .. }) if cycle.is_empty() || cycle == [0, 1] => {
            let index = run_in.len() as u64;
            tell(Err(Refusal::Broken { index }), block)
        }
        told => tell(told, block),
    }
});

fault!(
    never_tells_a_watching_rule_kept,
    |file, run_in, cycle, block| {
        changed((file, run_in, cycle), block, |plan, told| {
            let told = told?;
            let kept = told.kept & !plan.watching();
            Ok(Worth { kept, ..told })
        })
    }
);

fault!(
    always_tells_a_watching_rule_kept,
    |file, run_in, cycle, block| {
        changed((file, run_in, cycle), block, |plan, told| {
            let told = told?;
            let kept = told.kept | plan.watching();
            Ok(Worth { kept, ..told })
        })
    }
);

fault!(
    charges_1_for_a_watching_rule,
    |file, run_in, cycle, block| {
        changed((file, run_in, cycle), block, |plan, told| {
            let told = told?;
            let lost = plan.watching() & !told.kept;
            let cost = told.cost + lost.count_ones();
            Ok(Worth { cost, ..told })
        })
    }
);

fault!(refuses_weight_0, |file, run_in, cycle, block| {
    let text = String::from_utf8_lossy(file);
    let text = text.replace("weight=0\n", "weight=4000001\n");
    let told = check(text.as_bytes(), run_in, cycle);
    match told {
        Err(Refusal::Range { .. }) => tell(told, block),
        _ => checker::check_tour(file, run_in, cycle, block),
    }
});

/// Fills the block as the reference does, then spoils it.
fn spoilt(
    (file, run_in, cycle): (&[u8], &[u8], &[u8]),
    block: &mut [u8],
    spoil: impl Fn(u32, &[u8], &mut [u8]),
) -> u32 {
    let before = block.to_vec();
    let number = checker::check_tour(file, run_in, cycle, block);
    spoil(number, &before, block);
    number
}

fault!(leaves_the_line_on_success, |file, run_in, cycle, block| {
    spoilt((file, run_in, cycle), block, |number, before, block| {
        if number == 0 {
            block[4..8].copy_from_slice(&before[4..8]);
        }
    })
});

fault!(gives_line_1_beside_9, |file, run_in, cycle, block| {
    spoilt((file, run_in, cycle), block, |number, _, block| {
        if number == 9 {
            block[4] = 1;
        }
    })
});

fault!(leaves_the_index_on_success, |file, run_in, cycle, block| {
    spoilt((file, run_in, cycle), block, |number, before, block| {
        if number == 0 {
            block[16..24].copy_from_slice(&before[16..24]);
        }
    })
});

fault!(leaves_bytes_12_to_15, |file, run_in, cycle, block| {
    spoilt((file, run_in, cycle), block, |number, before, block| {
        if number != 7 {
            block[12..16].copy_from_slice(&before[12..16]);
        }
    })
});

fault!(
    gives_the_cost_of_all_beside_9,
    |file, run_in, cycle, block| {
        spoilt((file, run_in, cycle), block, |number, _, block| {
            if number == 9 {
                let cost = read(file).unwrap().cost(0);
                block[8..12].copy_from_slice(&cost.to_le_bytes());
            }
        })
    }
);

fault!(tells_255_for_accepted, |file, run_in, cycle, block| {
    spoilt((file, run_in, cycle), block, |number, _, block| {
        if number == 0 && block[2] == 1 {
            block[2] = 255;
        }
    })
});

fault!(touches_byte_24, |file, run_in, cycle, block| {
    spoilt((file, run_in, cycle), block, |number, _, block| {
        if let (true, Some(next)) = (number != 7, block.get_mut(24)) {
            *next = 0;
        }
    })
});

fault!(writes_7_into_a_short_block, |file, run_in, cycle, block| {
    spoilt((file, run_in, cycle), block, |number, _, block| {
        if let (7, Some(first)) = (number, block.first_mut()) {
            *first = 7;
        }
    })
});

fault!(takes_a_block_of_23_bytes, |file, run_in, cycle, block| {
    if block.len() != 23 {
        return checker::check_tour(file, run_in, cycle, block);
    }
    let mut longer = [block, &[0][..]].concat();
    let number = checker::check_tour(file, run_in, cycle, &mut longer);
    block.copy_from_slice(&longer[..23]);
    number
});

fault!(
    asks_for_a_block_of_32_bytes,
    |file, run_in, cycle, block| {
        match block.len() {
            24..=31 => 7,
            _ => checker::check_tour(file, run_in, cycle, block),
        }
    }
);

fault!(returns_0_for_9, |file, run_in, cycle, block| {
    match checker::check_tour(file, run_in, cycle, block) {
        9 => 0,
        number => number,
    }
});

/// A fault that shows in lists longer than other tests have.
macro_rules! long_fault {
    ($name:ident, $check_tour:expr) => {
        #[test]
        fn $name() {
            let faulty = with($check_tour);
            assert_eq!(found_out(faulty), None);
            assert!(found_out_by_length(faulty));
        }
    };
}

long_fault!(loses_indices_above_16_bits, |file, run_in, cycle, block| {
    let number = checker::check_tour(file, run_in, cycle, block);
    if number == 9 {
        block[18..24].fill(0);
    }
    number
});

long_fault!(loses_indices_above_8_bits, |file, run_in, cycle, block| {
    let number = checker::check_tour(file, run_in, cycle, block);
    if number == 9 {
        block[17] = 0;
    }
    number
});

long_fault!(
    reads_as_many_places_as_the_planner_gives,
    |file, run_in, cycle, block| {
        let run_in = &run_in[..run_in.len().min(2_048)];
        let cycle = &cycle[..cycle.len().min(20_480)];
        checker::check_tour(file, run_in, cycle, block)
    }
);

/// No fixed plan has a move line of five numbers.
#[test]
fn overlooks_any() {
    let faulty = with(|file, run_in, cycle, block| {
        rules_instead((file, run_in, cycle), block, |_, rule, _| {
            let moves = rule.moves.iter().map(|m| Move { any: None, ..*m });
            Automaton {
                moves: moves.collect(),
                ..rule.clone()
            }
        })
    });
    assert!(found_out_by_chance(faulty).is_some());
}

/// The planner's own tours tell too.
#[test]
fn charges_the_planner_s_tours_too_much() {
    let faulty = with(|file, run_in, cycle, block| {
        changed((file, run_in, cycle), block, |plan, told| {
            let cost = plan.cost(0);
            told.map(|worth| Worth { cost, ..worth })
        })
    });
    let mut tally = Tally::default();
    let objects = (0..100).any(|number| {
        let (case, mut random) = case(number);
        harness::check(faulty, &case, &mut random, &mut tally).is_err()
    });
    assert!(objects);
}

/// A harmed plan is refused here as it is by the planner.
#[test]
fn reads_a_plan_without_its_last_newline() {
    let faulty = with(|file, run_in, cycle, block| {
        let mended = match file.ends_with(b"\n") {
            true => file.to_vec(),
            false => [file, b"\n"].concat(),
        };
        checker::check_tour(&mended, run_in, cycle, block)
    });
    let mut tally = Tally::default();
    let harmed = reference::cases::harmed_cases();
    let objects = harmed
        .iter()
        .any(|case| check_beside_harm(faulty, case, &mut tally).is_err());
    assert!(objects);
}
