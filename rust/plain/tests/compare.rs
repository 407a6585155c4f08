//! The proved library and the plain planner on the same drawn files: answers, refusals with their places, and every byte
//! and word of lent memory. Run it with --release; each test prints how many cases of each kind it tried.

mod common;

use common::{
    any_file_of, as_read, bytes, drawn, edge_plan, editions_of, etg_and_lag, etg_and_lag_of, file_in, file_of, hex, in_slots,
    is_short, lag_case, lent, lent_words, many, many_streams, most_streams, need_all, need_lag_cases, oldest, other_slot, plan,
    plan_in, plan_of, repeat, shortest_slot, stream, tally_acknowledgements, tally_instance, tally_lag, tally_limit,
    tally_no_room, tally_refusal, tally_rows, tally_slot, tally_streams, tally_tie, terms, values_of, words, written_of,
    ByEdition, Counts, LagCase, Rng, Tally, BASE, EDITIONS, GREATEST, H, LARGEST, LONGEST_SLOT, MANY, MOST_STREAMS,
};
use livnakesh::{Compared, Label, Priority, Reason, Refused, Stream};
use plain::{self, Analysis, Edition, Level, Plan, Worst, ETG, LAG, P, ROW};

type Answers = fn(&[u8], &mut [u64]) -> Result<(), Refused>;

// ---- both on one file ----

/// The streams of a file, or any number if it is refused.
fn streams(rng: &mut Rng, file: &[u8]) -> usize {
    plain::read(file).map_or_else(|_| rng.within(1, 256) as usize, |plan| plan.streams.len())
}

fn answers_alike(rng: &mut Rng, file: &[u8], tally: &mut Tally) -> Option<Vec<u64>> {
    let n = streams(rng, file);
    let found = lent_words(rng, n, tally);
    let (mut proved, mut ours) = (found.clone(), found.clone());
    let said = livnakesh::answer_words(file, &mut proved);
    assert_eq!(said, plain::answers(file, &mut ours), "answers, {} words lent: {}", found.len(), hex(file));
    assert_eq!(proved, ours, "answers, {} words lent: {}", found.len(), hex(file));
    tally_refusal(tally, said);
    tally_no_room(tally, n, found.len(), said);
    let kept = if said.is_ok() { ROW * n } else { 0 };
    assert_eq!(proved[kept..], found[kept..], "words after the answers: {}", hex(file));
    tally_rows(tally, &proved[..kept]);
    said.ok().map(|()| proved[..kept].to_vec())
}

fn rewrite_alike(rng: &mut Rng, file: &[u8], tally: &mut Tally) {
    let wanted = plain::read(file).map(|plan| file_of(&plan));
    // A refused file needs no bytes, whatever is lent.
    let needed = wanted.as_ref().map_or_else(|_| rng.within(112, LARGEST as u64) as usize, Vec::len);
    let found = bytes(rng.next(), lent(rng, needed, tally));
    let (mut proved, mut ours) = (found.clone(), found.clone());
    // At an odd address, since lent bytes need not be aligned.
    let odd = [&[0], file].concat();
    let said = livnakesh::rewrite(&odd[1..], &mut proved);
    assert_eq!(said, plain::rewrite(file, &mut ours), "rewrite, {} bytes lent: {}", found.len(), hex(file));
    assert_eq!(proved, ours, "rewrite, {} bytes lent: {}", found.len(), hex(file));
    tally_refusal(tally, said);
    let kept = said.unwrap_or(0);
    assert_eq!(proved[kept..], found[kept..], "bytes after the file: {}", hex(file));
    if kept > 0 {
        let [etg, lag] = etg_and_lag_of(file);
        assert_eq!(wanted.as_deref(), Ok(&proved[..kept]), "one file is written of a plan: {}", hex(file));
        assert_eq!(etg_and_lag_of(&proved), [etg + lag, 0], "no LAG is written: {}", hex(file));
        let (same, written) = (file[0] == 3 && lag == 0, &proved[..kept]);
        assert_eq!(written == file, same, "a file of edition 3 without a LAG alone is written back: {}", hex(file));
        tally.count(if same { "written back" } else { "written anew" });
    } else if needed > file.len() && found.len() >= file.len() && wanted.is_ok() {
        tally.count("refusal 6: room for the old file");
    }
}

/// Both functions on a plan's file in each of its editions. Each is the same plan, and so has the same answers.
fn plan_alike(rng: &mut Rng, plan: &Plan, tally: &mut Tally) {
    let mut answered: Option<Vec<u64>> = None;
    for edition in editions_of(plan) {
        tally.count(format!("edition {}", edition as u32));
        let file = file_in(edition, plan);
        assert_eq!(plain::read(&file), Ok(as_read(plan)));
        rewrite_alike(rng, &file, tally);
        let Some(words) = answers_alike(rng, &file, tally) else { continue };
        if answered.as_ref().is_some_and(|older| *older != words) {
            panic!("other answers than in an older edition: {}", hex(&file));
        }
        if answered.replace(words).is_some() {
            tally.count("the answers of an older edition");
        }
    }
}

/// Both functions on one file, if its chains are not too long.
fn file_alike(rng: &mut Rng, file: &[u8], tally: &mut Tally) {
    rewrite_alike(rng, file, tally);
    match plain::read(file) {
        Ok(plan) if !is_short(&plan) => tally.count("chains too long, rewritten only"),
        _ => {
            answers_alike(rng, file, tally);
        }
    }
}

// ---- answers ----

fn load_in_percent(plan: &Plan) -> u64 {
    let (setup, slot) = (plain::setup(&plan.timing), plain::slot(&plan.timing));
    let share = |s: &Stream| 1_000_000 * slot.unwrap_or(setup + plain::acknowledged(s)) / u64::from(s.period);
    plan.streams.iter().map(share).sum::<u64>() / 10_000
}

fn tally_plan(tally: &mut Tally, plan: &Plan) {
    tally.count(match load_in_percent(plan) {
        0..=49 => "load: below 50 %",
        50..=89 => "load: 50 to 89 %",
        90..=99 => "load: 90 to 99 %",
        _ => "load: 100 % and above",
    });
    tally_streams(tally, plan);
    tally.count(format!("gaps: {}", plan.gaps.len()));
    tally.count(match plan.timing[plain::NB] {
        1..=4 => "NB: 1 to 4",
        5..=31 => "NB: 5 to 31",
        _ => "NB: 32",
    });
    tally_lag(tally, plan);
    tally_slot(tally, plan);
    tally_acknowledgements(tally, plan);
}

#[test]
fn drawn_plans() {
    let (mut rng, mut tallies) = (Rng(0x1A7E), ByEdition::default());
    for _ in 0..250_000 {
        let plan = drawn(&mut rng, plan, &mut tallies);
        let tally = tallies.of(&plan);
        tally_plan(tally, &plan);
        plan_alike(&mut rng, &plan, tally);
    }
    tallies.print("drawn plans");
    tallies.need_all(&["row: met", "row: missed", "row: none", "refusal 6"], 10_000);
    tallies.need_all(&["refusal 6: room but for the evaluations"], 5_000);
    tallies.need_all(&["worst: the first instance", "worst: the second instance", "worst: a later instance"], 1_000);
    tallies.need_all(&["lent: too short", "lent: exact", "lent: longer", "streams: 1"], 5_000);
    tallies.need_all(&["streams: 64"], 3_000);
    tallies.need_all(&["load: below 50 %", "load: 50 to 89 %", "load: 90 to 99 %", "load: 100 % and above"], 5_000);
    tallies.need_all(&["gaps: 0", "gaps: 8", "NB: 1 to 4", "NB: 5 to 31", "NB: 32"], 1_000);
    tallies.need_slotted(&["slot: just long enough", "slot: longer"], 10_000);
    tallies.need_all(&["LAG: 0", "LAG: fits", "LAG: just fits", "written back", "written anew"], 5_000);
    tallies.need_all(&["edition 3"], 50_000);
    need_all(&tallies.one, &["edition 1", "refusal 6: room for the old file", "the answers of an older edition"], 1_000);
    need_all(&tallies.two, &["edition 2", "refusal 6: room for the old file", "the answers of an older edition"], 1_000);
    need_all(&tallies.three, &["slot: none", "K: 0", "K: 1 to 100", "K: 101 to 65,534", "K: 65,535"], 5_000);
    need_all(&tallies.many, &["row: met", "row: missed", "row: none"], 10_000);
    need_all(&tallies.many, &["lent: too short", "lent: exact", "lent: longer", "written back", "written anew"], 100);
    need_all(&tallies.many, &["load: below 50 %", "load: 50 to 89 %", "load: 90 to 99 %", "load: 100 % and above"], 100);
    need_all(&tallies.many, &["slot: none", "slot: just long enough", "slot: longer", "LAG: 0", "LAG: fits"], 100);
    need_all(&tallies.many, &["worst: the second instance", "worst: a later instance"], 10);
    need_all(&tallies.many, &MANY, 100);
}

#[test]
fn plans_at_the_limits() {
    let (mut rng, mut tallies) = (Rng(0xED6E), ByEdition::default());
    for _ in 0..80_000 {
        let plan = drawn(&mut rng, edge_plan, &mut tallies);
        let tally = tallies.of(&plan);
        tally_streams(tally, &plan);
        tally_lag(tally, &plan);
        tally_slot(tally, &plan);
        tally_acknowledgements(tally, &plan);
        plan_alike(&mut rng, &plan, tally);
    }
    tallies.print("plans with every field at or next to a limit");
    tallies.need_all(&["row: met", "row: missed", "row: none", "LAG: 0", "LAG: fits", "LAG: just fits"], 1_000);
    tallies.need_slotted(&["slot: just long enough", "slot: longer"], 1_000);
    need_all(&tallies.three, &["slot: none", "K: 0", "K: 1 to 100", "K: 101 to 65,534", "K: 65,535"], 1_000);
    need_all(&tallies.many, &["row: met", "row: missed", "row: none", "slot: none", "slot: just long enough"], 50);
    need_all(&tallies.many, &MANY, 100);
}

fn tally_many(tally: &mut Tally, plan: &Plan) {
    tally_plan(tally, plan);
    tally.count(match plan.streams.iter().any(|s| s.acknowledgement > 0) {
        true => "acknowledged",
        false => "for its streams alone",
    });
}

/// The answer words of a plan, by both planners: by its values, by its file, and by the file that is written of it.
fn answers_however_lent(rng: &mut Rng, plan: &Plan) -> Vec<u64> {
    let (file, written) = (file_of(plan), written_of(plan));
    let found = words(rng.next(), ROW * plan.streams.len() + 1);
    let mut wanted = found.clone();
    assert_eq!(plain::screen(plan, &mut wanted), Ok(()), "{}", hex(&file));
    let mut by_values = found.clone();
    assert_eq!(livnakesh::screen_words(&plan.streams, &plan.timing, &plan.gaps, &mut by_values), Ok(()), "{}", hex(&file));
    assert_eq!(by_values, wanted, "{}", hex(&file));
    let by_file: [(Answers, &[u8]); 3] =
        [(livnakesh::answer_words, &file), (livnakesh::answer_words, &written), (plain::answers, &file)];
    for (answer, file) in by_file {
        let mut words = found.clone();
        assert_eq!((answer(file, &mut words), &words), (Ok(()), &wanted), "{}", hex(file));
    }
    assert_eq!(wanted.pop().as_ref(), found.last(), "the word after the answers: {}", hex(&file));
    wanted
}

/// One file is written of a plan: of its values, of its file, and of that file again.
fn written_however_lent(plan: &Plan) {
    let (file, written) = (file_of(plan), written_of(plan));
    let mut buffer = vec![9; written.len()];
    let said = livnakesh::write(plan.streams.len(), plan.gaps.len(), &values_of(plan), &mut buffer);
    assert_eq!((said, &buffer), (Ok(written.len()), &written), "{}", hex(&file));
    for file in [&file, &written] {
        buffer.fill(9);
        assert_eq!((livnakesh::rewrite(file, &mut buffer), &buffer), (Ok(written.len()), &written), "{}", hex(file));
    }
}

#[test]
fn many_streams_however_they_are_lent() {
    let (mut rng, mut tally) = (Rng(0x256), Tally::default());
    for k in 0..2_400 {
        let plan = drawn(&mut rng, [many_streams, many_later][k % 2], &mut tally);
        tally_many(&mut tally, &plan);
        written_however_lent(&plan);
        tally_rows(&mut tally, &answers_however_lent(&mut rng, &plan));
        Analysis::new(&plan).levels().filter_map(|level| terms(&level)).for_each(|terms| tally_tie(&mut tally, &terms));
    }
    tally.print("many streams by file, values and rewritten file");
    need_all(&tally, &MANY, 50);
    need_all(&tally, &["row: met", "row: missed", "row: none"], 2_000);
    need_all(
        &tally,
        &["acknowledged", "for its streams alone", "slot: none", "slot: just long enough", "gaps: 0", "gaps: 8"],
        20,
    );
    need_all(&tally, &["load: below 50 %", "load: 50 to 89 %", "load: 90 to 99 %", "load: 100 % and above", "NB: 32"], 10);
    need_all(&tally, &["worst: the second instance", "worst: a later instance", "tie: the first instance and a later one"], 20);
    need_all(&tally, &["LAG: 0", "LAG: fits", "LAG: just fits"], 20);
}

/// Renumbers the streams from 0 on, in their order of priority.
fn rank(plan: &mut Plan) {
    let mut rows: Vec<usize> = (0..plan.streams.len()).collect();
    rows.sort_by_key(|&row| plan.streams[row].priority);
    (0..).zip(rows).for_each(|(rank, row)| plan.streams[row].priority = Priority(rank));
}

/// For an older edition, and so that less urgent streams, if there were more, would block none: in slots, or with a U of 0.
fn unblock(plan: &mut Plan) {
    plan.streams.iter_mut().for_each(|s| s.acknowledgement = 0);
    plan.timing[plain::NB] = plan.timing[plain::NB].max(8);
    if plan.timing[P] == 0 {
        plan.timing[H..=LAG].fill(0);
    } else {
        plan.timing[P] = shortest_slot(plan).max(plan.timing[P]);
    }
    rank(plan);
}

fn unblocked(rng: &mut Rng) -> Plan {
    let (n, m) = (rng.within(1, 64) as usize, rng.pick(&[0, 0, 1, 8]));
    let mut plan = plan_of(rng, n, m);
    unblock(&mut plan);
    plan
}

/// One with an instance after the first that is the latest, or as late.
fn unblocked_later(rng: &mut Rng) -> Plan {
    loop {
        let mut plan = small_plan(rng);
        unblock(&mut plan);
        let plan = evened(rng, plan);
        let is_later = |terms: Vec<i64>| terms[1..].iter().any(|&term| term >= terms[0]);
        if is_short(&plan) && Analysis::new(&plan).levels().filter_map(|level| terms(&level)).any(is_later) {
            return plan;
        }
    }
}

/// More streams, up to 256, that are less urgent than all others, with messages of a tick. Often the first fills the channel, so that
/// the others have none, and that soon.
fn with_less_urgent(rng: &mut Rng, plan: &Plan) -> Plan {
    let mut more = plan.clone();
    let n = plan.streams.len();
    let unused = (0..u32::MAX).filter(|&label| plan.streams.iter().all(|s| s.label.0 != label));
    more.streams.extend((n..many(rng)).zip(unused).map(|(k, label)| stream(label, k as u32, u32::MAX, 0, 1, 1)));
    if rng.one_in(2) {
        more.streams[n].period = 1;
    }
    more
}

/// A few streams that nearly fill the channel below many that hardly ever send, so that instances after the first are the latest.
fn many_later(rng: &mut Rng) -> Plan {
    let mut plan = small_plan(rng);
    plan.timing[plain::NB] = 8;
    let mut plan = evened(rng, plan);
    let (few, n) = (plan.streams.len(), many(rng));
    for s in &mut plan.streams {
        s.priority.0 += (n - few) as u32;
    }
    plan.streams.extend((0..(n - few) as u32).map(|k| stream(0, k, u32::MAX, 0, 1, 1_000)));
    for (s, label) in plan.streams.iter_mut().zip(rng.distinct(n, u32::MAX)) {
        s.label = Label(label);
    }
    rng.shuffle(&mut plan.streams);
    plan
}

/// A file of edition 1 or 2, and one of edition 3 with more streams after its own.
#[test]
fn less_urgent_streams_that_block_none() {
    let (mut rng, mut tallies) = (Rng(0x1E55), ByEdition::default());
    for k in 0..1_000 {
        let (plan, more) = loop {
            let plan = drawn(&mut rng, [unblocked, unblocked_later][k % 2], &mut tallies);
            let more = with_less_urgent(&mut rng, &plan);
            if is_short(&more) {
                break (plan, more);
            }
        };
        let (n, old, new) = (plan.streams.len(), file_in(oldest(&plan), &plan), file_of(&more));
        let (mut few, mut many) = (vec![9; ROW * n], vec![9; ROW * more.streams.len()]);
        assert_eq!(livnakesh::answer_words(&old, &mut few), Ok(()));
        assert_eq!(livnakesh::answer_words(&new, &mut many), Ok(()));
        assert_eq!(few, many[..ROW * n], "{} and {}", hex(&old), hex(&new));
        let tally = tallies.of(&plan);
        tally_streams(tally, &plan);
        tally_streams(tally, &more);
        tally_rows(tally, &few);
    }
    tallies.print("plans, and the same with less urgent streams");
    for tally in [&tallies.one, &tallies.two] {
        need_all(tally, &["row: met", "row: missed", "row: none"], 200);
        need_all(tally, &["worst: the second instance", "worst: a later instance"], 20);
        need_all(tally, &MANY, 20);
    }
}

/// P next to C'' of every row: the lowest row that does not fit is told, also where too little memory is lent, and one that fits
/// just so is not.
#[test]
fn slots_next_to_every_message() {
    let (mut rng, mut tallies) = (Rng(0x510757), ByEdition::default());
    for _ in 0..4_000 {
        let (n, m) = (rng.pick(&[1, 2, 3, 5, 8, 64]), rng.below(9) as usize);
        let (edition, n) = match rng.below(100) {
            0 => (Edition::Three, many(&mut rng)),
            k => ([Edition::Two, Edition::Three][k as usize % 2], n),
        };
        let mut plan = plan_in(&mut rng, edition, n, m);
        let messages = in_slots(&plan);
        for slot in messages.iter().flat_map(|&message| [message - 1, message, message + 1]).filter(|&slot| slot > 0) {
            plan.timing[P] = slot;
            let tally = tallies.of(&plan);
            tally_slot(tally, &plan);
            tally_streams(tally, &plan);
            let (file, whole) = (file_in(edition, &plan), written_of(&plan));
            let row = messages.iter().position(|&message| message > slot);
            tally.count(match row {
                None => "all fit",
                Some(0) => "the first row does not fit",
                Some(1..=63) => "a later row does not fit",
                Some(_) => "a row past the 64th does not fit",
            });
            if row.is_some_and(|row| messages[row] - plan.streams[row].acknowledgement <= slot) {
                tally.count("a row does not fit for its acknowledgement");
            }
            let too_long = row.map(|row| Refused { number: 10, place: row as u64 });
            for lent in [0, whole.len() - 1, whole.len()] {
                let small = (lent < whole.len()).then_some(Refused { number: 6, place: 0 });
                let wanted = too_long.or(small).map_or(Ok(whole.len()), Err);
                let found = bytes(rng.next(), lent);
                let (mut proved, mut ours) = (found.clone(), found.clone());
                assert_eq!(livnakesh::rewrite(&file, &mut proved), wanted, "{lent} bytes lent: {}", hex(&file));
                assert_eq!(plain::rewrite(&file, &mut ours), wanted, "{lent} bytes lent: {}", hex(&file));
                let written = if wanted.is_ok() { &whole } else { &found };
                assert_eq!((&proved, &ours), (written, written), "{lent} bytes lent: {}", hex(&file));
            }
            let wanted = Err(too_long.unwrap_or(Refused { number: 6, place: 0 }));
            let mut few = words(rng.next(), ROW * n - 1);
            let found = few.clone();
            assert_eq!(livnakesh::answer_words(&file, &mut few), wanted, "{}", hex(&file));
            assert_eq!(few, found, "{}", hex(&file));
        }
    }
    tallies.print("slots next to C'' of every row");
    tallies.need_slotted(&["all fit", "the first row does not fit", "a later row does not fit"], 5_000);
    tallies.need_slotted(&["slot: too short", "slot: just long enough", "slot: longer"], 1_000);
    tallies.three.need("a row does not fit for its acknowledgement", 5_000);
    need_all(&tallies.many, &MANY, 1_000);
    tallies.many.need("a row past the 64th does not fit", 100);
}

/// Periods next to C'' and long jitters: hundreds of thousands of steps or instances each.
#[test]
fn long_chains() {
    let (mut rng, mut tally) = (Rng(0x10E6), Tally::default());
    for (payload, more, jitter) in
        [(5, 0, 0), (5, 1, 0), (5, 1, 100_000), (5, 3, 1_000_000), (482, 0, 500), (4_982, 0, 1), (1, 2, 700_000)]
    {
        let period = payload + 20 + more;
        let acknowledgement = payload / 2;
        let late = Stream { acknowledgement, ..stream(7, 3, period, jitter, payload - acknowledgement, 1_000) };
        for gaps in [vec![], vec![u32::MAX]] {
            let mut streams = vec![late];
            for others in 0..2 {
                let file = file_of(&Plan { timing: BASE, streams: streams.clone(), gaps: gaps.clone() });
                tally.count("plans");
                while answers_alike(&mut rng, &file, &mut tally).is_none() {}
                streams.push(stream(8 + others, others, 40_000_000, 9, 11, 5_000_000));
            }
        }
    }
    tally.print("long chains");
    need_all(&tally, &["row: met", "row: missed", "row: none"], 3);
}

/// Periods next to P and long jitters, as long as those above. At full load B alone keeps a chain going for ever.
#[test]
fn long_chains_in_slots() {
    let (mut rng, mut tally) = (Rng(0x10E65), Tally::default());
    for (slot, more, jitter) in
        [(18, 1, 0), (18, 1, 100_000), (20, 3, 1_000_000), (500, 0, 500), (5_000, 0, 0), (40, 2, 700_000), (LONGEST_SLOT, 1, 9)]
    {
        let timing = [4, 1, 1, 2, 1, 1, 2, 1, 4, slot];
        for gaps in [vec![], vec![u32::MAX]] {
            let mut streams = vec![stream(7, 3, slot + more, jitter, 5, 1_000)];
            for others in 0..2 {
                let file = file_of(&Plan { timing, streams: streams.clone(), gaps: gaps.clone() });
                tally.count("plans");
                while answers_alike(&mut rng, &file, &mut tally).is_none() {}
                streams.push(stream(8 + others, others, 40_000_000, 9, 5, 5_000_000));
            }
        }
    }
    tally.print("long chains in slots");
    need_all(&tally, &["row: met", "row: missed", "row: none"], 3);
}

/// A busy period of exactly 4,294,967,295 counts, and one of a tick more does not.
#[test]
fn busy_periods_at_the_horizon() {
    let (mut rng, mut tally) = (Rng(0x4022), Tally::default());
    // With T one more than C'', L is J times C''. F or K makes C'' of the payload.
    for (f, k) in [(0, 0), (1, 0), (0, 1)] {
        let cost = 65_535 + f + k;
        let longest = u32::MAX / cost;
        for (jitter, wanted) in [(longest, true), (longest + 1, false)] {
            let timing = [f, 0, 0, 0, 0, 0, 0, 0, 1, 0];
            let late = Stream { acknowledgement: k, ..stream(1, 0, cost + 1, jitter, 65_535, 1) };
            let plan = Plan { timing, streams: vec![late], gaps: vec![] };
            let length = u64::from(jitter) * u64::from(cost);
            let busy_period = Analysis::new(&plan).levels().find_map(|level| level.busy_period());
            assert_eq!(busy_period, wanted.then_some(length));
            while answers_alike(&mut rng, &file_of(&plan), &mut tally).is_none() {}
        }
    }
    tally.print("busy periods at the horizon");
    need_all(&tally, &["row: missed", "row: none"], 2);
}

#[test]
fn busy_periods_at_the_horizon_in_slots() {
    let (mut rng, mut tally) = (Rng(0x40225), Tally::default());
    // With T one more than P, L is P + J slots less a tick: 2^32 - 1 and 2^32 are among these.
    for (slot, jitter, wanted) in [(65_536, 0, true), (65_536, 1, false), (641, 6_699_775, true), (641, 6_699_776, false)] {
        let timing = [0, 0, 0, 0, 0, 0, 0, 0, 1, slot];
        let plan = Plan { timing, streams: vec![stream(1, 0, slot + 1, jitter, 641, 1)], gaps: vec![] };
        let length = u64::from(slot + jitter) * u64::from(slot) - 1;
        let busy_period = Analysis::new(&plan).levels().find_map(|level| level.busy_period());
        assert_eq!(busy_period, wanted.then_some(length));
        while answers_alike(&mut rng, &file_of(&plan), &mut tally).is_none() {}
    }
    tally.print("busy periods at the horizon in slots");
    need_all(&tally, &["row: missed", "row: none"], 2);
}

// ---- the plain planner against the rule's own words ----

fn ceil(ticks: u64, by: u32) -> u64 {
    ticks.div_ceil(u64::from(by))
}

/// The longest busy period that counts.
const HORIZON: u64 = 4_294_967_295;

/// A row of a plan as documents 01 and 02 say it.
struct Stated<'a> {
    own: &'a Stream,
    urgent: Vec<&'a Stream>,
    gaps: &'a [u32],
    /// V, or 0 in slots.
    v: u64,
    u: u64,
    h: u64,
    p: u64,
    blocking: u64,
    /// The largest and the smallest cost among the stream and the more urgent ones.
    dearest: u64,
    cheapest: u64,
}

impl<'a> Stated<'a> {
    fn of(plan: &'a Plan, row: usize) -> Stated<'a> {
        let [f, e, tfcs, swx, h, g, etg, lag, nb, p] = plan.timing.map(u64::from);
        let v = if p > 0 { 0 } else { f + e + tfcs.max(swx) + h };
        let u = g + (h + g) * nb + (etg + lag);
        let own = &plan.streams[row];
        let urgent = plan.streams.iter().filter(|s| s.priority < own.priority).collect();
        let mut stated = Stated { own, urgent, gaps: &plan.gaps, v, u, h, p, blocking: 0, dearest: 0, cheapest: 0 };
        let less_urgent = plan.streams.iter().filter(|s| s.priority > own.priority);
        stated.blocking = if p > 0 { p - 1 } else { less_urgent.map(|s| stated.sent(s) - 1).max().unwrap_or(0) };
        let costs: Vec<u64> = stated.urgent.iter().chain([&own]).map(|s| stated.cost(s)).collect();
        stated.dearest = costs.iter().copied().max().unwrap_or(0);
        stated.cheapest = costs.iter().copied().min().unwrap_or(0);
        stated
    }

    /// C'.
    fn sent(&self, s: &Stream) -> u64 {
        u64::from(s.payload) + u64::from(s.acknowledgement) + self.u
    }

    fn cost(&self, s: &Stream) -> u64 {
        if self.p > 0 {
            self.p
        } else {
            self.v + self.sent(s)
        }
    }

    /// The last term of the bound.
    fn last(&self) -> u64 {
        self.sent(self.own) + if self.p > 0 { self.h } else { self.v }
    }

    fn noise(&self, t: u64) -> u64 {
        self.gaps.iter().map(|&gap| ceil(t, gap)).sum::<u64>() * self.dearest
    }

    fn sum(&self, t: u64) -> u64 {
        self.urgent.iter().map(|s| ceil(t + u64::from(s.jitter), s.period) * self.cost(s)).sum()
    }

    fn instances(&self, l: u64) -> u64 {
        ceil(l + u64::from(self.own.jitter), self.own.period)
    }

    /// The right side of L.
    fn busy(&self, l: u64) -> u64 {
        self.blocking + self.sum(l) + self.instances(l) * self.cost(self.own) + self.noise(l)
    }

    /// The right side of w(q).
    fn wait(&self, q: u64, w: u64) -> u64 {
        let cost = self.cost(self.own);
        self.blocking + q * cost + self.sum(w + self.v + 1) + self.noise(w + cost)
    }

    /// The most evaluations of a search that finds this L, or none.
    fn limit(&self, busy_period: Option<u64>) -> u64 {
        busy_period.unwrap_or(HORIZON) / self.cheapest + 1
    }
}

/// The terms of a row's instances: each least number is looked for by counting up. Nothing if L is more than `most`.
fn terms_by_counting(stated: &Stated, most: u64) -> Option<Vec<i64>> {
    let own = stated.own;
    let busy = (1..=most).find(|&l| l == stated.busy(l))?;
    let terms = (0..stated.instances(busy)).map(|q| {
        let longest = busy - stated.cost(own);
        let wait = (0..=longest).find(|&w| w == stated.wait(q, w)).expect("w(q) is never more than L - C''");
        (u64::from(own.jitter) + wait + stated.last()) as i64 - (q * u64::from(own.period)) as i64
    });
    Some(terms.collect())
}

/// The values after 1, each the right side of the one before it, to one that stood there before or the first beyond the horizon: one for
/// each evaluation. Nothing if they are more than `most`.
fn chain(right: impl Fn(u64) -> u64, most: usize) -> Option<Vec<u64>> {
    let mut values = vec![1];
    while values.len() <= most {
        let next = right(values[values.len() - 1]);
        let ends = next > HORIZON || values.contains(&next);
        values.push(next);
        if ends {
            return Some(values.split_off(1));
        }
    }
    None
}

/// The evaluations of a row of the plain planner, against a list of them of up to `most`, by the rule and by its own right side.
fn listed_alike(level: &Level, stated: &Stated, most: usize, tally: &mut Tally) {
    let search = level.search();
    let Some(values) = chain(|l| stated.busy(l), most) else {
        return tally.count("evaluations too many to list");
    };
    assert_eq!(chain(|l| level.busy_step(l), most).as_ref(), Some(&values));
    assert_eq!(search.evaluations, values.len() as u64, "{values:?}");
    assert_eq!(search.busy_period, values.last().copied().filter(|&last| last <= HORIZON), "{values:?}");
    tally.count(match values.len() {
        1 => "evaluations: 1",
        2 => "evaluations: 2",
        3..=9 => "evaluations: 3 to 9",
        _ => "evaluations: 10 and more",
    });
}

/// The largest term, and the first instance that has it.
fn worst_of(terms: &[i64]) -> Worst {
    let largest = *terms.iter().max().expect("a busy period has an instance");
    let instance = terms.iter().position(|&term| term == largest).expect("the largest is one of them");
    Worst { bound: u64::try_from(largest).expect("the term for q = 0 is not below zero"), instance: instance as u64 }
}

fn small_plan(rng: &mut Rng) -> Plan {
    let n = rng.within(1, 4) as usize;
    let m = rng.below(3) as usize;
    let mut plan = plan_of(rng, n, m);
    let slots = plan.timing[P] > 0;
    plan.timing = std::array::from_fn(|_| rng.below(4) as u32);
    plan.timing[plain::NB] = rng.within(2, 5) as u32;
    for s in &mut plan.streams {
        s.payload = rng.within(1, 9) as u32;
        s.acknowledgement = s.acknowledgement.min(rng.within(1, 9) as u32);
    }
    plan.timing[P] = if slots { shortest_slot(&plan) + rng.below(4) as u32 } else { 0 };
    let (setup, slot) = (plain::setup(&plan.timing), plain::slot(&plan.timing));
    for (k, s) in plan.streams.iter_mut().enumerate() {
        s.priority = Priority(k as u32);
        let even = slot.unwrap_or(setup + plain::acknowledged(s)) * n as u64;
        s.period = if rng.one_in(3) { rng.within(1, 2 * even) } else { rng.within(even, even + even / 4) } as u32;
        s.jitter = rng.below(3 * u64::from(s.period)) as u32 * rng.below(2) as u32;
    }
    rng.shuffle(&mut plan.streams);
    plan.gaps.iter_mut().for_each(|gap| *gap = rng.within(20, 2_000) as u32);
    plan
}

/// Messages of one cost, and periods and jitters of whole and half costs, so that many instances are equally late.
fn even_plan(rng: &mut Rng) -> Plan {
    let plan = small_plan(rng);
    evened(rng, plan)
}

fn evened(rng: &mut Rng, mut plan: Plan) -> Plan {
    let longest = plan.streams.iter().map(|s| s.payload + s.acknowledgement).max().expect("a plan has streams");
    plan.streams.iter_mut().for_each(|s| s.payload = longest - s.acknowledgement);
    if plan.timing[P] > 0 {
        plan.timing[P] = shortest_slot(&plan);
    }
    let cost = plain::slot(&plan.timing).unwrap_or(plain::setup(&plan.timing) + u64::from(longest));
    let n = plan.streams.len() as u64;
    for s in &mut plan.streams {
        let halves = rng.within((2 * n - 2).max(2), 2 * n + 3);
        s.period = (cost * halves / 2) as u32;
        s.jitter = if rng.one_in(3) { (cost * rng.below(2 * halves) / 2) as u32 } else { 0 };
    }
    if !rng.one_in(4) {
        plan.gaps.clear();
    }
    plan
}

/// The plain planner on every row of a plan, against the rule with busy periods of up to `most`.
fn counted_alike(plan: &Plan, most: u64, tally: &mut Tally) {
    for level in Analysis::new(plan).levels() {
        let (busy_period, stated) = (level.busy_period(), Stated::of(plan, level.row));
        listed_alike(&level, &stated, most as usize, tally);
        let counted = terms_by_counting(&stated, most);
        if counted.is_none() && busy_period.is_some_and(|length| length > most) {
            tally.count("busy period too long to count");
            continue;
        }
        let worst = counted.as_deref().map(worst_of);
        assert_eq!(level.worst(), worst, "row {} of {}", level.row, hex(&file_of(plan)));
        tally.count(if worst.is_some() { "bound" } else { "none" });
        if let (Some(worst), Some(terms)) = (worst, counted) {
            tally_instance(tally, worst.instance);
            tally_tie(tally, &terms);
        }
    }
}

#[test]
fn plain_planner_by_counting() {
    let (mut rng, mut tallies) = (Rng(0xC0DE), ByEdition::default());
    for _ in 0..60_000 {
        let draw = if rng.one_in(3) { even_plan } else { small_plan };
        let plan = drawn(&mut rng, draw, &mut tallies);
        counted_alike(&plan, 4_000, tallies.of(&plan));
    }
    tallies.print("plain planner against the rule by counting up");
    tallies.need_all(&["evaluations: 2", "evaluations: 3 to 9", "evaluations: 10 and more"], 1_000);
    tallies.need_all(&["bound", "none", "worst: the first instance"], 1_000);
    tallies.need_all(&["worst: the second instance", "tie: the first instance and a later one"], 300);
    tallies.need_all(&["worst: a later instance"], 100);
    tallies.need_all(&["tie: two later instances"], 25);
}

#[test]
fn many_streams_by_counting() {
    let (mut rng, mut tally) = (Rng(0xC0DE5), Tally::default());
    for _ in 0..40 {
        let plan = drawn(&mut rng, many_later, &mut tally);
        tally_many(&mut tally, &plan);
        counted_alike(&plan, 6_000, &mut tally);
    }
    tally.print("plain planner of many streams against the rule by counting up");
    need_all(&tally, &MANY, 5);
    need_all(&tally, &["bound", "worst: the first instance"], 1_000);
    need_all(&tally, &["none", "slot: none", "slot: just long enough"], 5);
    need_all(&tally, &["evaluations: 2", "evaluations: 3 to 9", "evaluations: 10 and more"], 100);
}

/// Of instances that are equally late both planners tell the first.
#[test]
fn equally_late_instances() {
    let (mut rng, mut tallies) = (Rng(0x71E), ByEdition::default());
    for _ in 0..60_000 {
        let plan = drawn(&mut rng, even_plan, &mut tallies);
        let tally = tallies.of(&plan);
        if answers_alike(&mut rng, &file_of(&plan), tally).is_some() {
            Analysis::new(&plan).levels().filter_map(|level| terms(&level)).for_each(|terms| tally_tie(tally, &terms));
        }
    }
    tallies.print("equally late instances");
    tallies.need_all(&["tie: the first instance and a later one"], 500);
    tallies.need_all(&["tie: two later instances"], 50);
    tallies.need_all(&["worst: the second instance", "worst: a later instance"], 150);
}

// ---- evaluations and their limit ----

/// The evaluations of a plan's rows, as the library has them, against the limit: the plain planner's and that of the rule.
fn limits_kept(plan: &Plan, words: &[u64], tally: &mut Tally) {
    for level in Analysis::new(plan).levels() {
        let (evaluations, busy_period) = (words[ROW * level.row + 3], level.busy_period());
        let (stated, limit) = (Stated::of(plan, level.row), level.limit(busy_period));
        let case = || format!("row {} of {}", level.row, hex(&file_of(plan)));
        assert_eq!(limit, stated.limit(busy_period), "{}", case());
        assert!(evaluations <= limit, "{evaluations} evaluations and at most {limit}: {}", case());
        // A more urgent stream and a hit each stand in the first value, beside the stream's own message.
        let alone = stated.urgent.is_empty() && plan.gaps.is_empty();
        assert!(alone || evaluations < limit, "{evaluations} evaluations and below {limit}: {}", case());
        tally_limit(tally, busy_period, evaluations, limit);
    }
}

/// The number is that of the values which a plain list has after 1.
#[test]
fn evaluations_by_listing_them() {
    let (mut rng, mut tallies) = (Rng(0x1157), ByEdition::default());
    for k in 0..30_000 {
        let plan = drawn(&mut rng, [plan, edge_plan, even_plan][k % 3], &mut tallies);
        let tally = tallies.of(&plan);
        for level in Analysis::new(&plan).levels() {
            listed_alike(&level, &Stated::of(&plan, level.row), 2_000, tally);
        }
    }
    tallies.print("evaluations by listing them");
    tallies.need_all(&["evaluations: 1", "evaluations: 2", "evaluations: 3 to 9", "evaluations: 10 and more"], 1_000);
    need_all(&tallies.many, &["evaluations: 1", "evaluations: 2", "evaluations: 3 to 9", "evaluations: 10 and more"], 100);
}

#[test]
fn evaluations_within_their_limit() {
    let (mut rng, mut tallies) = (Rng(0x11317), ByEdition::default());
    for k in 0..80_000 {
        let plan = drawn(&mut rng, [plan, edge_plan, small_plan, even_plan][k % 4], &mut tallies);
        let (file, tally) = (any_file_of(&mut rng, &plan), tallies.of(&plan));
        tally_plan(tally, &plan);
        if let Some(words) = answers_alike(&mut rng, &file, tally) {
            limits_kept(&plan, &words, tally);
        }
    }
    tallies.print("evaluations within their limit");
    tallies.need_all(&["L: at the limit", "L: one below", "L: further below", "none: further below"], 500);
    tallies.need_all(&["row: met", "row: missed", "row: none", "gaps: 0", "gaps: 1", "gaps: 8"], 500);
    tallies.need_slotted(&["slot: just long enough", "slot: longer"], 500);
    tallies.three.need("slot: none", 500);
    need_all(&tallies.many, &["L: at the limit", "L: further below", "none: further below"], 10);
}

/// A stream with no jitter and a period of just what it costs, and often a less urgent one; and then that cost and B.
fn filled(rng: &mut Rng, edition: Edition) -> (Plan, u64, u64) {
    let acknowledgement = if edition == Edition::Three { rng.within(1, 9_000) as u32 } else { 0 };
    let mut timing = BASE;
    // Beside F there are 4 ticks in V and 12 in U.
    timing[0] = rng.within(0, 65_535) as u32;
    let slots = edition == Edition::Two || edition == Edition::Three && rng.one_in(2);
    let (payload, cost) = if slots {
        let any = rng.within(65_536, u64::from(LONGEST_SLOT)) as u32;
        timing[P] = rng.pick(&[1 << 16, 1 << 18, 1 << 22, any, any]);
        (1, timing[P])
    } else {
        (65_535, 65_535 + acknowledgement + timing[0] + 16)
    };
    let mut streams = vec![Stream { acknowledgement, ..stream(1, 0, cost, 0, payload, u32::MAX) }];
    let mut blocking = if slots { cost - 1 } else { 0 };
    if !rng.one_in(4) {
        // Next to what is left of the horizon after the last whole cost, and anywhere.
        let left = u32::MAX % cost;
        let any = rng.within(12, 65_546) as u32;
        let held = rng.pick(&[12, left.saturating_sub(1), left, left + 1, any, any]).clamp(12, 65_546);
        streams.push(stream(2, 1, u32::MAX, 0, if slots { 1 } else { held - 11 }, 1));
        blocking = if slots { blocking } else { held };
    }
    (Plan { timing, streams, gaps: vec![] }, u64::from(cost), u64::from(blocking))
}

/// Value k is B and k times the cost. With a B of 0 the second evaluation gives the first one's value again. Else the chain goes on to
/// the horizon, and as far as it may if B is at most what whole costs leave of it.
#[test]
fn a_stream_that_fills_the_channel() {
    let (mut rng, mut tallies) = (Rng(0xF111), ByEdition::default());
    for _ in 0..1_200 {
        let edition = rng.pick(&EDITIONS);
        let (plan, cost, blocking) = filled(&mut rng, edition);
        let (file, tally) = (any_file_of(&mut rng, &plan), tallies.of(&plan));
        let Some(words) = answers_alike(&mut rng, &file, tally) else { continue };
        limits_kept(&plan, &words, tally);
        let wanted = match blocking {
            0 => [0, cost, 0, 2],
            _ => [2, 0, 0, HORIZON / cost + u64::from(blocking <= HORIZON % cost)],
        };
        assert_eq!(words[..ROW], wanted, "C'' {cost}, B {blocking}: {}", hex(&file));
        let limit = if blocking == 0 { 2 } else { HORIZON / cost + 1 };
        tally.count(if wanted[3] == limit { "as many as there may be" } else { "one fewer" });
    }
    tallies.print("a stream that fills the channel");
    tallies.need_all(&["none: at the limit", "none: one below", "as many as there may be", "one fewer"], 30);
    tallies.one.need("L: at the limit", 30);
    tallies.three.need("L: at the limit", 30);
}

// ---- files that are not right ----

/// A word that is likely to break something: a limit, a neighbour, or a copy of another word of the file.
fn bad_word(rng: &mut Rng, file: &[u8], old: u32) -> u32 {
    let place = 4 * rng.below(file.len() as u64 / 4) as usize;
    let copy = u32::from_le_bytes([file[place], file[place + 1], file[place + 2], file[place + 3]]);
    let limits = [0, 1, 2, 32, 33, 65_535, 65_536, LONGEST_SLOT, LONGEST_SLOT + 1, u32::MAX];
    match rng.below(4) {
        0 => rng.pick(&limits),
        1 => old.wrapping_add(rng.pick(&[1, 24, 28, 4_u32.wrapping_neg(), u32::MAX])),
        2 => copy,
        _ => rng.wide(),
    }
}

/// One byte, one bit or one word; one in three among the contents and timing.
fn damage(rng: &mut Rng, file: &mut [u8], tally: &mut Tally) {
    let end = if rng.one_in(3) { 84 } else { file.len() };
    let place = rng.below(end as u64) as usize;
    match rng.below(3) {
        0 => {
            tally.count("damage: byte");
            file[place] = rng.next() as u8;
        }
        1 => {
            tally.count("damage: bit");
            file[place] ^= 1 << rng.below(8);
        }
        _ => {
            tally.count("damage: word");
            let place = place.min(file.len() - 4) / 4 * 4;
            let old = u32::from_le_bytes([file[place], file[place + 1], file[place + 2], file[place + 3]]);
            let word = bad_word(rng, file, old);
            file[place..place + 4].copy_from_slice(&word.to_le_bytes());
        }
    }
}

fn resize(rng: &mut Rng, file: &mut Vec<u8>, tally: &mut Tally) {
    let length = file.len();
    match rng.below(4) {
        0 => file.truncate(rng.below(length as u64) as usize),
        1 => file.truncate(length - rng.pick(&[1, 4, 24, 28])),
        2 => file.resize(length + rng.pick(&[1, 3, 4, 24, 28]), 1),
        _ => {
            let most = rng.pick(&[1_900, LARGEST as u64]);
            file.resize(length + rng.within(1, most) as usize, rng.next() as u8);
        }
    }
    tally.count(if file.len() < length { "damage: truncated" } else { "damage: extended" });
}

fn damaged(rng: &mut Rng, plan: &Plan, tally: &mut Tally) -> Vec<u8> {
    let mut plan = plan.clone();
    let kind = rng.below(15);
    if kind < 3 {
        tally.count("damage: P");
        plan.timing[P] = other_slot(rng, &plan);
    }
    if (2..5).contains(&kind) {
        repeat(rng, &mut plan, tally);
    }
    if kind == 14 {
        tally.count("damage: ETG and LAG");
        [plan.timing[ETG], plan.timing[LAG]] = etg_and_lag(rng);
    }
    let mut file = any_file_of(rng, &plan);
    match kind {
        0..=4 | 14 => {}
        5 => {
            tally.count("damage: P of 0 in edition 2");
            plan.timing[P] = 0;
            file = file_in(Edition::Two, &plan);
        }
        6 => {
            tally.count("damage: another edition's word");
            file[0] = 1 + (file[0] + rng.below(2) as u8) % 3;
        }
        7..=8 => resize(rng, &mut file, tally),
        _ => damage(rng, &mut file, tally),
    }
    if rng.one_in(6) && file.len() >= 84 {
        damage(rng, &mut file, tally);
    }
    file
}

#[test]
fn damaged_files() {
    let (mut rng, mut tallies) = (Rng(0xDA3A6E), ByEdition::default());
    for _ in 0..25_000 {
        let plan = drawn(&mut rng, plan, &mut tallies);
        let tally = tallies.of(&plan);
        for _ in 0..15 {
            let file = damaged(&mut rng, &plan, tally);
            file_alike(&mut rng, &file, tally);
            tally_streams(tally, &plan);
        }
    }
    tallies.print("damaged files");
    let all =
        ["refusal 1", "refusal 2", "refusal 3", "refusal 11", "refusal 4", "refusal 5", "refusal 10", "refusal 6", "answered"];
    tallies.need_all(&all, 1_000);
    need_all(&tallies.many, &all, 50);
    need_all(&tallies.many, &MANY, 100);
    tallies.need_all(&["damage: P", "damage: P of 0 in edition 2", "damage: another edition's word"], 1_000);
    tallies.need_all(&["damage: ETG and LAG"], 1_000);
}

/// The numbers of streams next to each limit: of an older edition, of edition 3, and of the longest file, which has room for 300
/// streams of an older edition.
fn numbers_of_streams(edition: Edition) -> Vec<usize> {
    let near = match edition {
        Edition::One | Edition::Two => [127..=129, 254..=257, 299..=301],
        Edition::Three => [127..=129, 190..=190, 254..=259],
    };
    (0..=67).chain(near.into_iter().flatten()).collect()
}

/// Files of as many streams as an edition has, more and fewer, also in the contents alone, and counts that are out of range.
#[test]
fn contents_of_all_sizes() {
    let (mut rng, mut tallies) = (Rng(0x512E5), ByEdition::default());
    for edition in EDITIONS {
        let tally = tallies.at(edition);
        for n in numbers_of_streams(edition) {
            for m in 0..=10_usize {
                let mut plan = plan_in(&mut rng, edition, n.clamp(1, most_streams(edition)), m);
                let last = plan.streams[0];
                plan.streams.truncate(n);
                plan.streams.resize(n, last);
                tally_streams(tally, &plan);
                let file = file_in(edition, &plan);
                file_alike(&mut rng, &file, tally);
                let in_range = (1..=most_streams(edition)).contains(&n) && m <= 8;
                let wanted = if file.len() > LARGEST { Some(1) } else { (!in_range).then_some(2) };
                let refused = plain::read(&file).err();
                assert_eq!(refused, wanted.map(|number| Refused { number, place: 0 }), "{edition:?}, {n} streams, {m} gaps");
                for place in 0..11 {
                    for change in [1, 4, 24, 28, u32::MAX, 0x8000_0000] {
                        file_alike(&mut rng, &with_more(&file, place, change), tally);
                    }
                }
            }
        }
    }
    tallies.print("contents of all sizes");
    tallies.need_all(&["refusal 1", "refusal 2", "answered"], 100);
    tallies.need_all(&MANY, 11);
    tallies.need_all(&["streams: none", "streams: too many"], 11);
}

/// The file with so much more in one of its words.
fn with_more(file: &[u8], place: usize, more: u32) -> Vec<u8> {
    let mut file = file.to_vec();
    let word = file[4 * place..].first_chunk_mut().expect("a word of the file");
    *word = u32::from_le_bytes(*word).wrapping_add(more).to_le_bytes();
    file
}

#[test]
fn random_bytes() {
    let (mut rng, mut tally) = (Rng(0xB17E5), Tally::default());
    let starts = EDITIONS.map(|edition| file_in(edition, &plan_in(&mut rng, edition, 5, 2)));
    for _ in 0..100_000 {
        let most = rng.pick(&[2_000, 2_000, 8_000]);
        let length = rng.within(0, most) as usize;
        let mut file = bytes(rng.next(), length);
        if rng.one_in(2) {
            let start = &starts[rng.below(3) as usize];
            let right = length.min(rng.within(0, 84) as usize);
            file[..right].copy_from_slice(&start[..right]);
        }
        file_alike(&mut rng, &file, &mut tally);
    }
    let edges = [0, 1, 43, 44, 45, 79, 80, 83, 84, 85, 1_648, 1_649, 1_652, 1_653, 1_907, 1_908, 1_909];
    for length in edges.into_iter().chain(7_279..=7_288) {
        file_alike(&mut rng, &vec![0; length], &mut tally);
        let number = if (44..=LARGEST).contains(&length) { 2 } else { 1 };
        assert_eq!(plain::read(&vec![0; length]), Err(Refused { number, place: 0 }), "{length} bytes");
    }
    tally.print("random bytes, 0 to 8,000 of them");
    need_all(&tally, &["refusal 1", "refusal 2"], 1_000);
}

/// Values lent to the writer meet the refusals that their file would.
#[test]
fn plain_writer_and_reader_agree() {
    let (mut rng, mut tally) = (Rng(0x3217E), Tally::default());
    for _ in 0..50_000 {
        let mut plan = plan(&mut rng);
        tally_streams(&mut tally, &plan);
        match rng.below(9) {
            0 => plan.timing[rng.below(9) as usize] = rng.wide(),
            1 => repeat(&mut rng, &mut plan, &mut tally),
            2 => plan.streams[0].payload = rng.wide(),
            3 => plan.gaps.extend([rng.wide(); 3]),
            4 => plan.timing[P] = other_slot(&mut rng, &plan),
            5 => plan.streams[0].acknowledgement = rng.wide(),
            6 => [plan.timing[ETG], plan.timing[LAG]] = etg_and_lag(&mut rng),
            _ => {}
        }
        let file = file_of(&plan);
        let mut buffer = vec![9; file.len()];
        let wrote = plain::write(&plan, &mut buffer);
        let mut again = vec![9; file.len()];
        let proved = livnakesh::rewrite(&file, &mut again);
        // Values have no length of their own, so counts that make a file too long are refused as counts.
        let wanted = if file.len() > LARGEST { Err(Refused { number: 2, place: 0 }) } else { proved };
        assert_eq!(wrote, wanted, "{}", hex(&file));
        assert_eq!(buffer, again, "{}", hex(&file));
        tally_refusal(&mut tally, wrote);
    }
    tally.print("plain writer on values against the library's reader on their file");
    need_all(&tally, &MANY, 20);
    need_all(&tally, &["refusal 2", "refusal 3", "refusal 11", "refusal 4", "refusal 5", "refusal 10", "answered"], 100);
}

// ---- ETG and LAG ----

/// A drawn plan that is entered with a LAG.
fn lagged(rng: &mut Rng) -> Plan {
    loop {
        let plan = plan(rng);
        if plan.timing[LAG] > 0 {
            return plan;
        }
    }
}

/// A file with a LAG, the same file with that in ETG, and the file that is written of both are one plan in every edition.
#[test]
fn a_lag_is_part_of_etg() {
    let (mut rng, mut tallies) = (Rng(0x1A6), ByEdition::default());
    for _ in 0..20_000 {
        let plan = drawn(&mut rng, lagged, &mut tallies);
        let tally = tallies.of(&plan);
        tally_streams(tally, &plan);
        let (n, written) = (plan.streams.len(), written_of(&plan));
        let mut wanted = vec![9; ROW * n];
        assert_eq!(livnakesh::answer_words(&written, &mut wanted), Ok(()));
        tally_rows(tally, &wanted);
        for edition in editions_of(&plan) {
            let [with, without] = [plan.clone(), as_read(&plan)].map(|plan| file_in(edition, &plan));
            assert_ne!(with, without);
            tally.count(format!("edition {}", edition as u32));
            for file in [with, without] {
                for answer in [livnakesh::answer_words as Answers, plain::answers] {
                    let mut words = vec![9; ROW * n];
                    assert_eq!((answer(&file, &mut words), &words), (Ok(()), &wanted), "{}", hex(&file));
                }
                for rewrite in [livnakesh::rewrite, plain::rewrite] {
                    let mut buffer = vec![9; written.len()];
                    assert_eq!((rewrite(&file, &mut buffer), &buffer), (Ok(written.len()), &written), "{}", hex(&file));
                }
                for lighter in [livnakesh::lighter, plain::lighter] {
                    let both = [lighter(&file, &written), lighter(&written, &file)];
                    assert_eq!(both, [Compared::Lighter; 2], "{}", hex(&file));
                }
            }
        }
    }
    tallies.print("files with a LAG, and with that in ETG");
    tallies.need_all(&["row: met", "row: missed", "row: none", "edition 3"], 5_000);
    tallies.one.need("edition 1", 5_000);
    tallies.two.need("edition 2", 5_000);
    need_all(&tallies.many, &MANY, 10);
}

/// ETG and LAG at and next to their limits, also where more is wrong and where too little memory is lent.
#[test]
fn etg_and_lag_in_files() {
    let (mut rng, mut tallies) = (Rng(0x68), ByEdition::default());
    for _ in 0..120_000 {
        let oldest = rng.pick(&EDITIONS);
        let edition = rng.pick(&[oldest, Edition::Three]);
        let tally = tallies.at(oldest);
        let LagCase { plan, short, refused } = lag_case(&mut rng, oldest, edition, tally);
        let file = file_in(edition, &plan);
        let (n, needed) = (plan.streams.len(), file_of(&plan).len());
        for rewrite in [livnakesh::rewrite, plain::rewrite] {
            let found = bytes(rng.next(), needed - short);
            let mut buffer = found.clone();
            assert_eq!(rewrite(&file, &mut buffer), refused.map_or(Ok(needed), Err), "{}", hex(&file));
            assert_eq!(buffer, if refused.is_none() { written_of(&plan) } else { found }, "{}", hex(&file));
        }
        if refused.is_some() || is_short(&plan) {
            let found = words(rng.next(), ROW * n - short);
            let (mut proved, mut ours) = (found.clone(), found.clone());
            let wanted = refused.map_or(Ok(()), Err);
            assert_eq!(livnakesh::answer_words(&file, &mut proved), wanted, "{}", hex(&file));
            assert_eq!(plain::answers(&file, &mut ours), wanted, "{}", hex(&file));
            assert_eq!(proved, ours, "{}", hex(&file));
            assert_eq!(proved == found, refused.is_some(), "{}", hex(&file));
        }
        tally.count(format!("file of edition {}", edition as u32));
    }
    tallies.print("files with ETG and LAG at and next to their limits");
    need_lag_cases(&tallies);
    tallies.one.need("file of edition 1", 5_000);
    tallies.two.need("file of edition 2", 5_000);
    tallies.need_all(&["file of edition 3"], 5_000);
}

// ---- the lighter plan ----

fn more(rng: &mut Rng, value: u32, most: u32) -> u32 {
    let room = u64::from(most - value);
    value
        + match rng.below(3) {
            0 => room.min(1),
            1 => room.min(u64::from(rng.wide())),
            _ => room.min(1 + u64::from(value / 4)),
        } as u32
}

fn less(rng: &mut Rng, value: u32, least: u32) -> u32 {
    match rng.below(3) {
        0 => value.saturating_sub(1).max(least),
        1 => rng.within(u64::from(least), u64::from(value)) as u32,
        _ => (value - value / 4).max(least),
    }
}

/// Other numbers in the same order of priority.
fn renumber(rng: &mut Rng, plan: &mut Plan) {
    let mut numbers = rng.distinct(plan.streams.len(), u32::MAX >> (32 - plan.timing[plain::NB]));
    numbers.sort_unstable();
    let mut order: Vec<usize> = (0..plan.streams.len()).collect();
    order.sort_by_key(|&row| plan.streams[row].priority);
    for (row, number) in order.into_iter().zip(numbers) {
        plan.streams[row].priority = Priority(number);
    }
}

fn ease_stream(rng: &mut Rng, s: &mut Stream) {
    match rng.below(7) {
        0 => s.period = more(rng, s.period, u32::MAX),
        1 => s.jitter = less(rng, s.jitter, 0),
        2 => s.payload = less(rng, s.payload, 1),
        3 => s.deadline = more(rng, s.deadline, u32::MAX),
        4 => s.acknowledgement = less(rng, s.acknowledgement, 0),
        _ => {}
    }
}

fn ease_gaps(rng: &mut Rng, gaps: &mut Vec<u32>) {
    if rng.one_in(3) && !gaps.is_empty() {
        gaps.remove(rng.below(gaps.len() as u64) as usize);
    }
    for gap in gaps.iter_mut() {
        if rng.one_in(3) {
            *gap = more(rng, *gap, u32::MAX);
        }
    }
    rng.shuffle(gaps);
}

fn ease_timing(rng: &mut Rng, plan: &mut Plan) {
    for k in 0..plain::NB {
        if rng.one_in(4) {
            plan.timing[k] = less(rng, plan.timing[k], 0);
        }
    }
    if rng.one_in(4) {
        // No more than LAG gives up.
        let moved = rng.within(0, u64::from(plan.timing[LAG])) as u32;
        plan.timing[LAG] -= moved;
        plan.timing[ETG] += less(rng, moved, 0);
    }
    let least = (plan.streams.len() as u64).next_power_of_two().trailing_zeros().max(1);
    plan.timing[plain::NB] = less(rng, plan.timing[plain::NB], least);
    if plan.timing[P] > 0 {
        plan.timing[P] = less(rng, plan.timing[P], shortest_slot(plan));
    }
    renumber(rng, plan);
}

/// A lighter plan, in one respect or in all of them.
fn eased(rng: &mut Rng, old: &Plan) -> Plan {
    let mut new = old.clone();
    let all = rng.one_in(3);
    if (all || rng.one_in(4)) && new.streams.len() > 1 {
        let pulled = rng.below(new.streams.len() as u64) as usize;
        new.streams.remove(pulled);
    }
    if all || rng.one_in(4) {
        new.streams.iter_mut().for_each(|s| ease_stream(rng, s));
    }
    if all || rng.one_in(4) {
        ease_gaps(rng, &mut new.gaps);
    }
    if all || rng.one_in(4) {
        ease_timing(rng, &mut new);
    }
    if all || rng.one_in(4) {
        renumber(rng, &mut new);
    }
    if all || rng.one_in(4) {
        rng.shuffle(&mut new.streams);
    }
    new
}

fn hurt_noise(rng: &mut Rng, new: &mut Plan) {
    let (m, shortest) = (new.gaps.len() as u64, new.gaps.iter().copied().min().unwrap_or(1_000));
    match rng.below(3) {
        0 if m < 8 => new.gaps.push(rng.wide().max(1)),
        1 if m > 0 => new.gaps[rng.below(m) as usize] = less(rng, shortest, 1),
        // A repeat of another gap, which may have no second partner.
        _ if m > 1 => new.gaps[rng.below(m) as usize] = new.gaps[rng.below(m) as usize],
        _ => {}
    }
}

/// Breaks one condition, unless a limit is in the way. Values of the old plan count, not those of an eased one.
fn hurt(rng: &mut Rng, old: &Plan, new: &mut Plan, condition: u64) {
    let row = rng.below(new.streams.len() as u64) as usize;
    let other = rng.below(new.streams.len() as u64) as usize;
    let Some(before) = old.streams.iter().find(|s| s.label == new.streams[row].label).copied() else {
        return;
    };
    let stream = &mut new.streams[row];
    match condition {
        1 => {
            let k = rng.below(if old.timing[P] > 0 { 10 } else { 9 }) as usize;
            let most = match k {
                plain::NB => 32,
                P => LONGEST_SLOT,
                _ => 65_535,
            };
            new.timing[k] = more(rng, old.timing[k], most);
        }
        2 => stream.label = Label(rng.next() as u32),
        3 => stream.period = less(rng, before.period, 1),
        4 => stream.jitter = more(rng, before.jitter, u32::MAX),
        5 => stream.payload = more(rng, before.payload, 65_535),
        6 => stream.deadline = less(rng, before.deadline, 1),
        7 => {
            let kept = new.streams[row].priority;
            new.streams[row].priority = new.streams[other].priority;
            new.streams[other].priority = kept;
        }
        8 => hurt_noise(rng, new),
        9 => new.timing[P] = if old.timing[P] > 0 { 0 } else { shortest_slot(new) },
        _ => stream.acknowledgement = more(rng, before.acknowledgement, 65_535),
    }
}

/// Demand 3 as it is stated, for two plans that are not refused: it compares what is read.
fn demand_3(old: &Plan, new: &Plan) -> bool {
    let [old, new] = [old, new].map(as_read);
    let before = |s: &Stream| old.streams.iter().find(|o| o.label == s.label).copied();
    let both: Option<Vec<(Stream, Stream)>> = new.streams.iter().map(|s| Some((before(s)?, *s))).collect();
    let Some(both) = both else { return false };
    let no_harder = |(o, s): &(Stream, Stream)| {
        let longer = s.period >= o.period && s.deadline >= o.deadline;
        longer && s.jitter <= o.jitter && s.payload <= o.payload && s.acknowledgement <= o.acknowledgement
    };
    let in_order = |(old_a, a): &(Stream, Stream), (old_b, b): &(Stream, Stream)| {
        (a.priority < b.priority) == (old_a.priority < old_b.priority)
    };
    (new.timing[P] > 0) == (old.timing[P] > 0)
        && both.iter().all(no_harder)
        && both.iter().all(|a| both.iter().all(|b| in_order(a, b)))
        && new.timing.iter().zip(old.timing).all(|(&new, old)| new <= old)
        && plain::partnered(&old.gaps, &new.gaps)
}

/// What "lighter" promises: a bound stays one and grows no larger, and met stays met. Which instance is the worst may change.
fn promise_kept(old: &Plan, new: &Plan, tally: &mut Tally) {
    if !is_short(old) || !is_short(new) {
        return tally.count("promise: chains too long");
    }
    let (mut before, mut after) = ([9; ROW * MOST_STREAMS], [9; ROW * MOST_STREAMS]);
    let said = livnakesh::answer_words(&file_of(old), &mut before).and(livnakesh::answer_words(&file_of(new), &mut after));
    assert_eq!(said, Ok(()));
    for (row, stream) in new.streams.iter().enumerate() {
        let old_row = old.streams.iter().position(|s| s.label == stream.label).expect("a lighter plan has no new label");
        let (was, is) = (&before[ROW * old_row..][..ROW], &after[ROW * row..][..ROW]);
        let kept = was[0] == 2 || (is[0] <= was[0] && is[1] <= was[1]);
        assert!(kept, "row {row} has {is:?} after {was:?}: {} and {}", hex(&file_of(old)), hex(&file_of(new)));
        tally.count(["promise: row was met", "promise: row was missed", "promise: row had none"][was[0] as usize]);
        if was[0] != 2 && is[2] != was[2] {
            tally.count("promise: another instance is the worst");
        }
    }
    tally.count("promise: pair run");
}

fn condition(reason: Reason) -> String {
    match reason {
        Reason::MasterNode => "condition 9, master node".into(),
        Reason::GreaterConstant(LAG) => panic!("a plan that was read has no LAG"),
        Reason::GreaterConstant(k) => format!("condition 1, constant {k}"),
        Reason::NewLabel(_) => "condition 2, new label".into(),
        Reason::ShorterPeriod(_) => "condition 3, shorter period".into(),
        Reason::LongerJitter(_) => "condition 4, longer jitter".into(),
        Reason::LongerPayload(_) => "condition 5, longer payload".into(),
        Reason::ShorterDeadline(_) => "condition 6, shorter deadline".into(),
        Reason::LongerAcknowledgement(_) => "condition 10, longer acknowledgement".into(),
        Reason::LessUrgent(_) => "condition 7, less urgent".into(),
        Reason::MoreNoise(_) => "condition 8, more noise".into(),
    }
}

fn lighter_alike(first: &[u8], second: &[u8], tally: &mut Tally) -> Compared {
    let said = livnakesh::lighter(first, second);
    assert_eq!(said, plain::lighter(first, second), "lighter: {} and {}", hex(first), hex(second));
    tally.count(match said {
        Compared::Lighter => "lighter".into(),
        Compared::FirstRefused(refused) => format!("first refused {}", refused.number),
        Compared::SecondRefused(refused) => format!("second refused {}", refused.number),
        Compared::RunAgain(reason) => condition(reason),
    });
    said
}

fn pair_alike(rng: &mut Rng, old: &Plan, new: &Plan, tally: &mut Tally) -> Compared {
    let (first, second) = (any_file_of(rng, old), any_file_of(rng, new));
    tally.count(format!("editions {} and {}", first[0], second[0]));
    let said = lighter_alike(&first, &second, tally);
    if plain::check(old).and(plain::check(new)).is_err() {
        return said;
    }
    let counted = plain::more_noise(&old.gaps, &new.gaps).is_none();
    assert_eq!(plain::partnered(&old.gaps, &new.gaps), counted, "gaps {:?} and {:?}", old.gaps, new.gaps);
    assert_eq!(said == Compared::Lighter, demand_3(old, new), "lighter: {} and {}", hex(&first), hex(&second));
    if said == Compared::Lighter {
        promise_kept(old, new, tally);
    }
    said
}

/// Gaps from few values, so that many repeat.
fn repeat_gaps(rng: &mut Rng, plan: &mut Plan) {
    let few = [rng.wide().max(1), rng.wide().max(1), 40_000];
    plan.gaps.iter_mut().for_each(|gap| *gap = rng.pick(&few));
}

#[test]
fn pairs_of_plans() {
    let (mut rng, mut tallies) = (Rng(0x116473), ByEdition::default());
    for _ in 0..40_000 {
        let mut old = plan(&mut rng);
        if rng.one_in(3) {
            repeat_gaps(&mut rng, &mut old);
        }
        let tally = tallies.of(&old);
        tally_streams(tally, &old);
        pair_alike(&mut rng, &old, &old, tally);
        let easy = eased(&mut rng, &old);
        pair_alike(&mut rng, &old, &easy, tally);
        pair_alike(&mut rng, &easy, &old, tally);
        for mut new in [old.clone(), easy.clone(), easy] {
            for _ in 0..2 {
                let condition = rng.within(1, 10);
                hurt(&mut rng, &old, &mut new, condition);
                pair_alike(&mut rng, &old, &new, tally);
            }
        }
        let (mut first, mut second) = (damaged(&mut rng, &old, &mut Tally::default()), any_file_of(&mut rng, &old));
        lighter_alike(&first, &second, tally);
        std::mem::swap(&mut first, &mut second);
        lighter_alike(&first, &second, tally);
        lighter_alike(&damaged(&mut rng, &old, &mut Tally::default()), &second, tally);
    }
    tallies.print("pairs of plans");
    tallies.need_all(&["lighter"], 10_000);
    for k in (0..9).filter(|&k| k != LAG) {
        tallies.need_all(&[&format!("condition 1, constant {k}")], 100);
        tallies.many.need(&format!("condition 1, constant {k}"), 20);
    }
    tallies.need_slotted(&[&format!("condition 1, constant {P}")], 500);
    for conditions in [
        ["condition 2, new label", "condition 3, shorter period", "condition 4, longer jitter"],
        ["condition 5, longer payload", "condition 6, shorter deadline", "condition 7, less urgent"],
        ["condition 8, more noise", "condition 9, master node", "condition 10, longer acknowledgement"],
    ] {
        tallies.need_all(&conditions, 500);
        need_all(&tallies.many, &conditions, 50);
    }
    need_all(&tallies.one, &["editions 1 and 1", "editions 1 and 2", "editions 1 and 3", "editions 3 and 1"], 1_000);
    need_all(&tallies.two, &["editions 2 and 2", "editions 2 and 1", "editions 2 and 3", "editions 3 and 2"], 1_000);
    need_all(&tallies.three, &["editions 3 and 1", "editions 3 and 2", "editions 3 and 3"], 200);
    tallies.need_all(&["promise: row was met", "promise: row was missed", "promise: row had none"], 500);
    tallies.need_all(&["promise: another instance is the worst"], 50);
    for number in [1, 2, 3, 11, 4, 5, 10] {
        let either = [&*format!("first refused {number}"), &format!("second refused {number}")];
        tallies.need_all(&either, 100);
        need_all(&tallies.many, &either, 5);
    }
    need_all(&tallies.many, &["lighter", "promise: pair run"], 200);
    need_all(&tallies.many, &["promise: row was met", "promise: row was missed", "promise: row had none"], 500);
    need_all(&tallies.many, &MANY, 50);
}

/// LAG falls and ETG rises. What counts is both together: a LAG that falls makes up for an ETG that rises by no more than that.
#[test]
fn pairs_with_etg_for_lag() {
    let (mut rng, mut tallies) = (Rng(0xE76), ByEdition::default());
    let again = Compared::RunAgain(Reason::GreaterConstant(ETG));
    let refused = Refused { number: 11, place: 68 };
    for _ in 0..30_000 {
        let (mut old, kind) = (lagged(&mut rng), rng.below(4));
        let [etg, lag] = [old.timing[ETG], old.timing[LAG]];
        let fallen = rng.within(1, u64::from(lag)) as u32;
        let room = GREATEST - (etg + lag);
        let risen = match kind {
            0 => rng.below(u64::from(fallen)) as u32,
            1 => fallen,
            2 => fallen + room.min(1 + rng.below(9) as u32),
            // Not above what ETG itself may be.
            _ => (fallen + room + rng.within(1, 9) as u32).min(GREATEST - etg),
        };
        let mut new = old.clone();
        [new.timing[ETG], new.timing[LAG]] = [etg + risen, lag - fallen];
        if old.timing[P] > 0 {
            // Both have room for the longer messages.
            let slot = shortest_slot(&old).max(shortest_slot(&new));
            [old.timing[P], new.timing[P]] = [slot, slot];
        }
        let tally = tallies.of(&old);
        let there = pair_alike(&mut rng, &old, &new, tally);
        let back = pair_alike(&mut rng, &new, &old, tally);
        let (kind, wanted) = match i64::from(risen) - i64::from(fallen) {
            ..0 => ("ETG rises by less than LAG falls", (Compared::Lighter, again)),
            0 => ("ETG rises by as much as LAG falls", (Compared::Lighter, Compared::Lighter)),
            more if more <= i64::from(room) => ("ETG rises by more than LAG falls", (again, Compared::Lighter)),
            _ => ("ETG and LAG are too great", (Compared::SecondRefused(refused), Compared::FirstRefused(refused))),
        };
        assert_eq!((there, back), wanted, "{kind}: {} and {}", hex(&file_of(&old)), hex(&file_of(&new)));
        tally.count(kind);
    }
    tallies.print("pairs with a greater ETG for a smaller LAG");
    tallies.need_all(&["ETG rises by less than LAG falls", "ETG rises by as much as LAG falls"], 1_000);
    tallies.need_all(&["ETG rises by more than LAG falls", "ETG and LAG are too great", "promise: pair run"], 500);
    need_all(&tallies.many, &["ETG rises by as much as LAG falls", "ETG and LAG are too great", "promise: pair run"], 20);
}

#[test]
fn partners_of_gaps_by_matching_and_by_counting() {
    let (mut rng, mut tally) = (Rng(0x6A95), Tally::default());
    for _ in 0..200_000 {
        let most = rng.within(1, 12);
        let [old, new] = [0, 1].map(|_| (0..rng.below(9)).map(|_| rng.within(1, most) as u32).collect::<Vec<u32>>());
        let matched = plain::partnered(&old, &new);
        assert_eq!(matched, plain::more_noise(&old, &new).is_none(), "gaps {old:?} and {new:?}");
        tally.count(if matched { "all have partners" } else { "one has none" });
    }
    tally.print("gaps");
    need_all(&tally, &["all have partners", "one has none"], 10_000);
}
