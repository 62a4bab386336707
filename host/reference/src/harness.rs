//! One case put to the library and to the reference, the answers set side by
//! side.

use crate::brute::{all_short_tours, chance_tours, Search};
use crate::cases::Case;
use crate::checking::check_own;
use crate::entry::{Block, BLOCK_BYTES};
use crate::figures::Figure;
use crate::library::{Library, REFERENCE};
use crate::plan::Plan;
use crate::random::Random;
use crate::reader::read;
use crate::reading::check_read_back;
use crate::reply::{Found, Lengths, Reply};
use crate::serving::follow;
use crate::tally::Tally;

/// A plan with a larger N is planned less often.
const MUCH: u64 = 300;

/// Puts the case to the library with several buffers. The error says what
/// differed.
pub fn check(
    library: Library,
    case: &Case,
    random: &mut Random,
    tally: &mut Tally,
) -> Result<(), String> {
    let plan = read(&case.file);
    tally.copied.file(&case.file, plan.as_ref());
    let plan = plan.as_ref().ok();
    if let Some(plan) = plan {
        tally.plan(&case.kind, plan);
    }
    let further = if much(plan) { 1 } else { 3 };
    tally.case(|tally| {
        let salt = random.byte();
        let found = one_call(library, case, plan, exact(plan), salt, tally)?;
        if let Some(plan) = plan {
            let others = no_better_tour(plan, found, random, tally)?;
            if let Some((kept, _)) = found {
                tally.watched.answer(plan, kept, &others);
            }
            if !much(Some(plan)) {
                tally.parked.best(plan, found.map(|(kept, _)| kept));
            }
        }
        for _ in 0..further {
            let lengths = chance_lengths(plan, random);
            one_call(library, case, plan, lengths, random.byte(), tally)?;
        }
        Ok(())
    })
}

/// Puts the case to the library once, with buffers as long as asked for.
pub fn check_once(library: Library, case: &Case, tally: &mut Tally) -> Result<(), String> {
    let plan = read(&case.file).ok();
    let lengths = exact(plan.as_ref());
    tally
        .case(|tally| one_call(library, case, plan.as_ref(), lengths, 0, tally))
        .map(|_| ())
}

/// Puts the case to the library with every two buffers about the limits, and
/// with every answer block of up to 40 bytes.
pub fn check_limits(library: Library, case: &Case, tally: &mut Tally) -> Result<(), String> {
    let plan = read(&case.file).ok();
    let plan = plan.as_ref();
    let limits = exact(plan);
    let about = |limit: usize| [0, limit - 1, limit, limit + 1];
    let pairs = about(limits.run_in).into_iter().flat_map(|run_in| {
        about(limits.cycle).map(|cycle| Lengths {
            run_in,
            cycle,
            ..limits
        })
    });
    let blocks = if much(plan) { 14..=17 } else { 0..=40 };
    let blocks = blocks.map(|answer| Lengths { answer, ..limits });
    tally.case(|tally| {
        for (salt, lengths) in pairs.chain(blocks).enumerate() {
            one_call(library, case, plan, lengths, salt as u8, tally)?;
        }
        Ok(())
    })
}

fn much(plan: Option<&Plan>) -> bool {
    plan.is_some_and(|plan| plan.size() > MUCH)
}

fn one_call(
    library: Library,
    case: &Case,
    plan: Option<&Plan>,
    lengths: Lengths,
    salt: u8,
    tally: &mut Tally,
) -> Result<Found, String> {
    let reference = Reply::of(salt, case, lengths, REFERENCE);
    let own = Reply::of(salt, case, lengths, library);
    tally.call(reference.returned);

    let with_lengths = |what: String| format!("{what}\nbuffers: {lengths:?}");
    reference
        .sound(plan)
        .map_err(|what| with_lengths(format!("reference: {what}")))?;
    let found = own
        .sound(plan)
        .map_err(|what| with_lengths(format!("library: {what}")))?;
    own.agrees(&reference).map_err(with_lengths)?;
    if let Some((run_in, cycle)) = own.tour() {
        follow(library, run_in, cycle, salt, tally)?;
    }
    if let Some(plan) = plan {
        match (own.returned, own.tour()) {
            (0, Some((_, cycle))) => tally.parked.tour(plan, cycle),
            (6, _) => tally.parked.no_tour(plan),
            _ => {}
        }
    }
    if let (Some(plan), Some(tour), Some(worth)) = (plan, own.tour(), own.worth()) {
        check_own(library, case, plan, tour, worth, (salt, tally))
            .map_err(|what| format!("the planner's tour, checked: {what}"))?;
    }
    if let Some(answer) = own.answer() {
        let more = salt as usize % 4;
        check_read_back(library, &answer, case.margin, more, tally)?;
    }
    Ok(found)
}

/// Puts a file to the library and looks for the answer that 01 gives, or that was
/// worked out by hand, whatever the reference says.
pub fn check_figure(library: Library, figure: &Figure) -> Result<(), String> {
    let case = Case::new(figure.name, figure.file.clone());
    let lengths = Lengths {
        answer: figure.answer,
        run_in: figure.buffers.0,
        cycle: figure.buffers.1,
    };
    let reply = Reply::of(0, &case, lengths, library);
    reply.sound(read(&figure.file).ok().as_ref())?;
    let given = Block {
        number: figure.number as u8,
        line: figure.line,
        cost: figure.cost,
        kept: figure.kept,
        count: figure.kept.count_ones() as u8,
        ..Block::default()
    };
    let given = (figure.answer >= BLOCK_BYTES).then_some(given);
    let (told, given) = ((reply.returned, reply.fixed()), (figure.number, given));
    if told != given {
        return Err(format!("answer {told:?}, given {given:?}"));
    }
    Ok(())
}

/// Buffers of just the lengths that the plan asks for.
pub fn exact(plan: Option<&Plan>) -> Lengths {
    let (run_in, cycle) = plan.map_or((2_048, 20_480), |plan| (plan.size(), plan.cycle_bound()));
    Lengths {
        answer: BLOCK_BYTES,
        run_in: run_in as usize,
        cycle: cycle as usize,
    }
}

fn chance_lengths(plan: Option<&Plan>, random: &mut Random) -> Lengths {
    let limits = exact(plan);
    let mut about = |limit: usize| match random.below(10) {
        0..=3 => limit,
        4 => limit - 1,
        5 => limit + 1,
        6 => limit + random.below(1_000),
        7 => limit.max(20_480) + random.below(3),
        8 => random.below(limit + 1),
        _ => random.below(2),
    };
    let (run_in, cycle) = (about(limits.run_in), about(limits.cycle));
    let answer = if random.once_in(3) {
        BLOCK_BYTES
    } else {
        random.below(41)
    };
    Lengths {
        answer,
        run_in,
        cycle,
    }
}

/// No tour at hand is better than the answer, and among all the short ones is
/// one as good, if the answer's own tour is short. Gives what the best of those
/// tried keep, all of one cost.
fn no_better_tour(
    plan: &Plan,
    found: Found,
    random: &mut Random,
    tally: &mut Tally,
) -> Result<Vec<u8>, String> {
    let beaten_by = |search: &Search| match (search.kept, found) {
        (None, _) => false,
        (Some(_), None) => true,
        (Some(kept), Some((held, _))) => plan.better(kept, held),
    };
    let some = chance_tours(plan, random, 10, 30);
    tally.tours_judged += some.judged;
    if beaten_by(&some) {
        return Err(format!(
            "a tour by chance keeps {:?}, the answer {found:?}",
            some.kept
        ));
    }
    if plan.labels.len() <= 3 && !much(Some(plan)) {
        let all = all_short_tours(plan, 250, 9);
        tally.tours_judged += all.judged;
        tally.tried += 1;
        tally.tied += (all.least.len() > 1) as usize;
        if beaten_by(&all) {
            return Err(format!(
                "a short tour keeps {:?}, the answer {found:?}",
                all.kept
            ));
        }
        if let Some((kept, places)) = found {
            if places <= all.places {
                tally.settled += 1;
                if all.kept != Some(kept) {
                    return Err(format!(
                        "the best short tour keeps {:?}, the answer {found:?}",
                        all.kept
                    ));
                }
            }
        }
        return Ok(all.least);
    }
    Ok(some.least)
}
