//! The comparison has teeth: libraries with one fault each are found out within
//! a few hundred cases, and the reference itself is not.

use reference::cases::case;
use reference::entry::{self, Block};
use reference::harness::check;
use reference::library::{Library, REFERENCE};
use reference::plan::{Automaton, Move, Plan, Soft};
use reference::planner::best_tour;
use reference::reader::{read, Refusal};
use reference::serving::check_offsets;
use reference::tally::Tally;
use reference::tour::judge;
use reference::upcoming::upcoming_offset;

/// The number of the first of 2,000 cases in which the harness objects.
fn found_out(library: Library) -> Option<u64> {
    let mut tally = Tally::default();
    (0..2_000)
        .filter(|number| number % 16 != 14)
        .find(|&number| {
            let (case, mut random) = case(number);
            check(library, &case, &mut random, &mut tally).is_err()
        })
}

#[test]
fn the_reference_is_not_found_out() {
    assert_eq!(found_out(REFERENCE), None);
    assert_eq!(check_offsets(REFERENCE, &mut Tally::default()), Ok(()));
}

/// Makes a test that a planner is found out.
macro_rules! fault {
    ($name:ident, $plan_tour:expr) => {
        #[test]
        fn $name() {
            let faulty = Library {
                plan_tour: $plan_tour,
                ..REFERENCE
            };
            assert!(found_out(faulty).is_some());
        }
    };
}

/// Plans another plan in the place of the one given, and answers with its
/// tour and what that tour truly keeps, so that only demand 3 is broken.
fn plan_instead(
    file: &[u8],
    answer: &mut [u8],
    run_in: &mut [u8],
    cycle: &mut [u8],
    other: impl Fn(&Plan) -> Plan,
) -> u32 {
    let number = entry::plan_tour(file, answer, &mut run_in.to_vec(), &mut cycle.to_vec());
    if number == 0 {
        let plan = read(file).unwrap();
        let (tour, _) = best_tour(&other(&plan))
            .or_else(|| best_tour(&plan))
            .unwrap();
        let verdict = judge(&plan, &tour.run_in, &tour.cycle);
        run_in[..tour.run_in.len()].copy_from_slice(&tour.run_in);
        cycle[..tour.cycle.len()].copy_from_slice(&tour.cycle);
        let block = Block {
            kept: verdict.kept,
            count: verdict.count,
            cost: verdict.cost,
            run_in: tour.run_in.len() as u16,
            cycle: tour.cycle.len() as u16,
            ..Block::default()
        };
        answer[..16].copy_from_slice(&block.bytes());
    }
    number
}

fault!(says_always_6, |_, answer, _, _| {
    if answer.len() < 16 {
        return 7;
    }
    answer[..16].fill(0);
    answer[0] = 6;
    6
});

fault!(writes_one_place_too_many, |file, answer, run_in, cycle| {
    let number = entry::plan_tour(file, answer, run_in, cycle);
    if number == 0 {
        let length = u16::from_le_bytes([answer[14], answer[15]]) as usize;
        if let Some(next) = cycle.get_mut(length) {
            *next = 0;
        }
    }
    number
});

fault!(writes_before_refusing_5, |file, answer, run_in, cycle| {
    let number = entry::plan_tour(file, answer, run_in, cycle);
    if number == 5 && !run_in.is_empty() {
        run_in[0] = 0;
    }
    number
});

fault!(clears_the_whole_block, |file, answer, run_in, cycle| {
    let number = entry::plan_tour(file, answer, run_in, cycle);
    if number != 7 {
        answer[16..].fill(0);
    }
    number
});

fault!(asks_for_one_byte_more, |file, answer, run_in, cycle| {
    let less = run_in.len().saturating_sub(1);
    entry::plan_tour(file, answer, &mut run_in[..less], cycle)
});

fault!(
    takes_a_loop_one_byte_short,
    |file, answer, run_in, cycle| {
        let mut longer = [&cycle[..], &[0]].concat();
        let number = entry::plan_tour(file, answer, run_in, &mut longer);
        cycle.copy_from_slice(&longer[..cycle.len()]);
        number
    }
);

fault!(
    reads_a_file_without_its_last_newline,
    |file, answer, run_in, cycle| {
        let mended = if file.ends_with(b"\n") {
            file.to_vec()
        } else {
            [file, b"\n"].concat()
        };
        entry::plan_tour(&mended, answer, run_in, cycle)
    }
);

fault!(drops_carriage_returns, |file, answer, run_in, cycle| {
    let mended: Vec<u8> = file.iter().copied().filter(|&byte| byte != b'\r').collect();
    entry::plan_tour(&mended, answer, run_in, cycle)
});

fault!(
    loses_numbers_above_32_bits,
    |file, answer, run_in, cycle| {
        let mut mended = Vec::new();
        for part in file.chunk_by(|a, b| a.is_ascii_digit() == b.is_ascii_digit()) {
            let digits = std::str::from_utf8(part).ok();
            match digits.and_then(|digits| digits.parse::<u64>().ok()) {
                Some(value) if part[0] != b'0' => mended.extend((value as u32).to_string().bytes()),
                _ => mended.extend(part),
            }
        }
        entry::plan_tour(&mended, answer, run_in, cycle)
    }
);

fault!(takes_the_first_move_only, |file, answer, run_in, cycle| {
    plan_instead(file, answer, run_in, cycle, |plan| {
        let first_only = |rule: &Automaton| {
            let mut rule = rule.clone();
            let all = rule.moves.clone();
            let earlier = |i: usize| all[..i].iter().any(|m| m.from == all[i].from);
            rule.moves = (0..all.len())
                .filter(|&i| !earlier(i))
                .map(|i| all[i])
                .collect();
            rule
        };
        let mut other = plan.clone();
        for soft in &mut other.soft {
            soft.rule = first_only(&soft.rule);
        }
        other
    })
});

/// Plans with other soft moves in the place of each; a hard rule in other
/// words would be found out by its tours at once.
fn soft_moves_instead(
    file: &[u8],
    answer: &mut [u8],
    run_in: &mut [u8],
    cycle: &mut [u8],
    other: impl Fn(&Automaton, Move) -> Option<Move>,
) -> u32 {
    plan_instead(file, answer, run_in, cycle, |plan| {
        let mut changed = plan.clone();
        for soft in &mut changed.soft {
            let rule = soft.rule.clone();
            let moves = rule.moves.iter();
            soft.rule.moves = moves.filter_map(|&m| other(&rule, m)).collect();
        }
        changed
    })
}

fault!(overlooks_any, |file, answer, run_in, cycle| {
    soft_moves_instead(file, answer, run_in, cycle, |_, m| {
        Some(Move { any: None, ..m })
    })
});

fault!(asks_for_all_of_any, |file, answer, run_in, cycle| {
    soft_moves_instead(file, answer, run_in, cycle, |_, m| {
        let need = m.need | m.any.unwrap_or(0);
        Some(Move { need, ..m })
    })
});

fault!(shuts_a_move_with_any_0, |file, answer, run_in, cycle| {
    soft_moves_instead(file, answer, run_in, cycle, |_, m| {
        (m.any != Some(0)).then_some(m)
    })
});

fault!(takes_any_in_place_of_need, |file, answer, run_in, cycle| {
    soft_moves_instead(file, answer, run_in, cycle, |_, m| {
        let need = m.any.map_or(m.need, |_| 0);
        Some(Move { need, ..m })
    })
});

fault!(
    reads_any_behind_the_target,
    |file, answer, run_in, cycle| {
        soft_moves_instead(file, answer, run_in, cycle, |rule, m| match m.any {
            Some(any) if any < rule.states => Some(Move {
                any: Some(m.to),
                to: any,
                ..m
            }),
            _ => Some(m),
        })
    }
);

/// The file with its move lines changed, each given as its numbers' texts.
fn mended(file: &[u8], change: impl Fn(&mut Vec<&[u8]>)) -> Vec<u8> {
    let mut lines: Vec<Vec<u8>> = file.split(|&b| b == b'\n').map(<[u8]>::to_vec).collect();
    for line in &mut lines {
        if let Some(text) = line.strip_prefix(b"move=") {
            let mut numbers: Vec<&[u8]> = text.split(|&byte| byte == b',').collect();
            change(&mut numbers);
            *line = [b"move=", &numbers.join(&b',')[..]].concat();
        }
    }
    lines.join(&b'\n')
}

fault!(refuses_five_numbers, |file, answer, run_in, cycle| {
    let file = mended(file, |numbers| {
        if numbers.len() == 5 {
            numbers.push(b"0");
        }
    });
    entry::plan_tour(&file, answer, run_in, cycle)
});

fault!(reads_six_numbers, |file, answer, run_in, cycle| {
    let file = mended(file, |numbers| {
        if numbers.len() == 6 {
            numbers.pop();
        }
    });
    entry::plan_tour(&file, answer, run_in, cycle)
});

fault!(reads_three_numbers, |file, answer, run_in, cycle| {
    let file = mended(file, |numbers| {
        if numbers.len() == 3 {
            numbers.push(b"0");
        }
    });
    entry::plan_tour(&file, answer, run_in, cycle)
});

fault!(reads_any_of_any_size, |file, answer, run_in, cycle| {
    let file = mended(file, |numbers| {
        if numbers.len() == 5 && numbers[3].len() > 3 {
            numbers[3] = b"0";
        }
    });
    entry::plan_tour(&file, answer, run_in, cycle)
});

fault!(
    judges_ranges_of_a_move_before_its_form,
    |file, answer, run_in, cycle| {
        let number = entry::plan_tour(file, answer, run_in, cycle);
        let good = |number: &&&[u8]| number.iter().all(u8::is_ascii_digit);
        let cut = mended(file, |numbers| {
            let count = numbers.iter().take_while(good).count();
            numbers.truncate(count.min(3));
            numbers.resize(4, b"0");
        });
        match (number, read(&cut)) {
            (2, Err(Refusal::Range { .. })) => entry::plan_tour(&cut, answer, run_in, cycle),
            _ => number,
        }
    }
);

fault!(breaks_ties_the_other_way, |file, answer, run_in, cycle| {
    plan_instead(file, answer, run_in, cycle, |plan| {
        let mut other = plan.clone();
        other.soft.reverse();
        other
    })
});

fault!(
    counts_rules_and_not_weights,
    |file, answer, run_in, cycle| {
        plan_instead(file, answer, run_in, cycle, |plan| {
            let mut other = plan.clone();
            for soft in &mut other.soft {
                soft.weight = 1;
            }
            other
        })
    }
);

fault!(overlooks_the_start_label, |file, answer, run_in, cycle| {
    plan_instead(file, answer, run_in, cycle, |plan| {
        let mut other = plan.clone();
        other.labels[plan.start as usize] = 0;
        other
    })
});

fault!(forgets_the_soft_rules, |file, answer, run_in, cycle| {
    plan_instead(file, answer, run_in, cycle, |plan| Plan {
        soft: Vec::new(),
        ..plan.clone()
    })
});

/// The file with this text in the place of another after `weight=`.
fn with_weights(file: &[u8], old: &str, new: &str) -> Vec<u8> {
    let [old, new] = [old, new].map(|number| format!("weight={number}").into_bytes());
    let lines = file.split(|&byte| byte == b'\n');
    let lines = lines.map(|line| if line == old { &new } else { line });
    lines.collect::<Vec<&[u8]>>().join(&b'\n')
}

fault!(refuses_weight_0, |file, answer, run_in, cycle| {
    let file = with_weights(file, "0", "4000001");
    entry::plan_tour(&file, answer, run_in, cycle)
});

fault!(reads_weight_00, |file, answer, run_in, cycle| {
    let file = with_weights(file, "00", "0");
    entry::plan_tour(&file, answer, run_in, cycle)
});

fault!(reads_weight_minus_0, |file, answer, run_in, cycle| {
    let file = with_weights(file, "-0", "0");
    entry::plan_tour(&file, answer, run_in, cycle)
});

fault!(reads_no_weight_as_0, |file, answer, run_in, cycle| {
    let file = with_weights(file, "", "0");
    entry::plan_tour(&file, answer, run_in, cycle)
});

fault!(reads_weight_4000001, |file, answer, run_in, cycle| {
    let file = with_weights(file, "4000001", "4000000");
    entry::plan_tour(&file, answer, run_in, cycle)
});

/// The plan with its watching rules in other places, or without them.
fn watching_instead(plan: &Plan, places: impl Fn(Vec<Soft>, Vec<Soft>) -> Vec<Soft>) -> Plan {
    let soft = plan.soft.iter().cloned();
    let (watching, weighing) = soft.partition(|soft| soft.weight == 0);
    Plan {
        soft: places(watching, weighing),
        ..plan.clone()
    }
}

fn without_watching(plan: &Plan) -> Plan {
    watching_instead(plan, |_, weighing| weighing)
}

fault!(
    leaves_watching_rules_out_of_ties,
    |file, answer, run_in, cycle| { plan_instead(file, answer, run_in, cycle, without_watching) }
);

fault!(
    settles_ties_by_weighing_rules_first,
    |file, answer, run_in, cycle| {
        plan_instead(file, answer, run_in, cycle, |plan| {
            watching_instead(plan, |watching, weighing| [weighing, watching].concat())
        })
    }
);

fault!(
    settles_ties_by_watching_rules_first,
    |file, answer, run_in, cycle| {
        plan_instead(file, answer, run_in, cycle, |plan| {
            watching_instead(plan, |watching, weighing| [watching, weighing].concat())
        })
    }
);

fault!(plans_with_weight_1_for_0, |file, answer, run_in, cycle| {
    plan_instead(file, answer, run_in, cycle, |plan| {
        let mut other = plan.clone();
        for soft in &mut other.soft {
            soft.weight = soft.weight.max(1);
        }
        other
    })
});

/// Answers as the reference does, but tells something else of the tour: of its
/// cost, kept byte and count.
fn tells_instead(
    file: &[u8],
    answer: &mut [u8],
    run_in: &mut [u8],
    cycle: &mut [u8],
    other: impl Fn(&Plan, u32, u8) -> (u32, u8, u8),
) -> u32 {
    let number = entry::plan_tour(file, answer, run_in, cycle);
    if number == 0 {
        let cost = u32::from_le_bytes(answer[8..12].try_into().unwrap());
        let (cost, kept, count) = other(&read(file).unwrap(), cost, answer[1]);
        (answer[1], answer[2]) = (kept, count);
        answer[8..12].copy_from_slice(&cost.to_le_bytes());
    }
    number
}

fault!(
    never_tells_a_watching_rule_kept,
    |file, answer, run_in, cycle| {
        tells_instead(file, answer, run_in, cycle, |plan, cost, kept| {
            let kept = kept & !plan.watching();
            (cost, kept, kept.count_ones() as u8)
        })
    }
);

fault!(
    always_tells_a_watching_rule_kept,
    |file, answer, run_in, cycle| {
        tells_instead(file, answer, run_in, cycle, |plan, cost, kept| {
            let kept = kept | plan.watching();
            (cost, kept, kept.count_ones() as u8)
        })
    }
);

fault!(
    leaves_watching_rules_out_of_the_count,
    |file, answer, run_in, cycle| {
        tells_instead(file, answer, run_in, cycle, |plan, cost, kept| {
            (cost, kept, (kept & plan.weighing()).count_ones() as u8)
        })
    }
);

fault!(
    charges_1_for_a_watching_rule,
    |file, answer, run_in, cycle| {
        tells_instead(file, answer, run_in, cycle, |plan, cost, kept| {
            let lost = (plan.watching() & !kept).count_ones();
            (cost + lost, kept, kept.count_ones() as u8)
        })
    }
);

fault!(
    leaves_watching_rules_out_of_n,
    |file, answer, run_in, cycle| {
        let number = entry::plan_tour(file, answer, run_in, cycle);
        let plan = read(file).map(|plan| without_watching(&plan));
        match plan {
            Ok(plan) if number == 5 => {
                entry::plan_tour(plan.text().as_bytes(), answer, run_in, cycle)
            }
            _ => number,
        }
    }
);

/// Makes a test that a server of upcoming places is found out, both by numbers
/// alone and along the tours of the cases.
macro_rules! offset_fault {
    ($name:ident, $upcoming_offset:expr) => {
        #[test]
        fn $name() {
            let faulty = Library {
                upcoming_offset: $upcoming_offset,
                ..REFERENCE
            };
            assert!(check_offsets(faulty, &mut Tally::default()).is_err());
            assert!(found_out(faulty).is_some());
        }
    };
}

offset_fault!(is_right_at_step_0_only, |_, _, _| 0);

offset_fault!(forgets_the_remainder, |run_in, _, t| {
    t.checked_sub(run_in).unwrap_or(t)
});

offset_fault!(counts_turns_from_step_0, |run_in, cycle, t| {
    upcoming_offset(if t < run_in { run_in } else { 0 }, cycle, t)
});

offset_fault!(enters_the_loop_a_step_late, |run_in, cycle, t| {
    upcoming_offset(run_in.saturating_add(1), cycle, t)
});

offset_fault!(loses_steps_above_32_bits, |run_in, cycle, t| {
    upcoming_offset(run_in, cycle, t as u32 as u64)
});

/// No tour has an empty loop, so only the numbers tell.
#[test]
fn goes_on_counting_in_an_empty_loop() {
    let faulty = Library {
        upcoming_offset: |run_in, cycle, t| match cycle {
            0 => t,
            _ => upcoming_offset(run_in, cycle, t),
        },
        ..REFERENCE
    };
    assert!(check_offsets(faulty, &mut Tally::default()).is_err());
}
