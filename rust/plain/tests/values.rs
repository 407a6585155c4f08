//! Values instead of a file, lent as plain words to the writer and as records by the screen: the proved library against the
//! plain planner, and against itself on the values' file.

mod common;

use common::{
    as_read, bytes, drawn, edge_plan, etg_and_lag, file_of, is_short, lag_case, lent, lent_words, most_streams, need_all,
    need_lag_cases, other_slot, plan, plan_in, plan_of, repeat, stream, tally_lag, tally_no_room, tally_refusal, tally_rows,
    values_of, words, written_of, ByEdition, Counts, LagCase, Rng, Tally, EDITIONS, LARGEST, MOST_STREAMS,
};
use livnakesh::{Refused, Stream};
use plain::{self, Edition, Plan, ETG, LAG, P, ROW};

/// Counts that no plan has, among them some that a cut to fewer bits or a product that wraps would take for a plan's.
const WRONG_COUNTS: [usize; 10] =
    [257, 258, 512, 512 + 3, 65_536 + 1, (1 << 32) + 2, usize::MAX / 28 + 2, usize::MAX / 4 + 2, 1 << 63, usize::MAX];

fn tally_counts(tally: &mut Tally, n: usize, m: usize) {
    tally.count(match n {
        0 => "counts: no streams",
        1..=64 => "counts: 1 to 64 streams",
        65..=255 => "counts: 65 to 255 streams",
        256 => "counts: 256 streams",
        257 => "counts: 257 streams",
        258..=1_000 => "counts: 258 to 1,000 streams",
        _ => "counts: more streams",
    });
    tally.count(match m {
        0..=8 => "counts: 0 to 8 gaps",
        9..=1_000 => "counts: 9 to 1,000 gaps",
        _ => "counts: more gaps",
    });
}

/// Without streams there are no acknowledgements.
fn need_no_streams(tallies: &ByEdition, least: u64) {
    tallies.one.need("counts: no streams", least);
    tallies.two.need("counts: no streams", least);
}

fn size(plan: &Plan) -> usize {
    84 + 28 * plan.streams.len() + 4 * plan.gaps.len()
}

/// What was said, and for 3 the kind of field.
fn tally_said<T>(tally: &mut Tally, plan: &Plan, said: Result<T, Refused>) {
    if let Err(Refused { number: 3, place }) = said {
        let kind = match place as usize {
            44..=75 => "constant",
            76 => "NB",
            80 => "P",
            byte if byte >= 84 + 28 * plan.streams.len() => "gap",
            byte => ["label", "priority", "period", "jitter", "payload", "deadline", "acknowledgement"][(byte - 84) / 4 % 7],
        };
        tally.count(format!("refusal 3: {kind}"));
    }
    tally_refusal(tally, said);
}

const ALL_OF_3: [&str; 7] = [
    "refusal 3: constant",
    "refusal 3: NB",
    "refusal 3: priority",
    "refusal 3: period",
    "refusal 3: payload",
    "refusal 3: deadline",
    "refusal 3: gap",
];

/// Every refusal that values meet, and for 3 every field.
fn need_wrong_values(tallies: &ByEdition) {
    let all = ["refusal 3", "refusal 11", "refusal 4", "refusal 5", "refusal 6", "answered"];
    tallies.need_all(&all, 1_000);
    tallies.need_all(&ALL_OF_3, 500);
    tallies.need_slotted(&["refusal 3: P", "refusal 10"], 1_000);
    tallies.three.need("refusal 3: acknowledgement", 500);
    need_all(&tallies.many, &all, 50);
    need_all(&tallies.many, &ALL_OF_3, 15);
    need_all(&tallies.many, &["refusal 3: P", "refusal 3: acknowledgement", "refusal 10"], 50);
    need_all(&tallies.many, &["counts: 65 to 255 streams", "counts: 256 streams"], 500);
}

/// A field that is likely to be wrong; any label and jitter is right, but for a repeated label.
fn hurt(rng: &mut Rng, plan: &mut Plan, tallies: &mut ByEdition) {
    let word = rng.pick(&[0, 0, 1, 33, 65_535, 65_536, u32::MAX, 0x8000_0000]);
    let word = if rng.one_in(3) { rng.wide() } else { word };
    let row = rng.below(plan.streams.len() as u64) as usize;
    let gap = rng.below(plan.gaps.len().max(1) as u64) as usize;
    let stream = &mut plan.streams[row];
    match rng.below(11) {
        0 => plan.timing[rng.below(8) as usize] = word,
        1 => plan.timing[plain::NB] = word,
        2 => stream.priority.0 = word,
        3 => stream.period = word,
        4 => stream.payload = word,
        5 => stream.deadline = word,
        6 => stream.acknowledgement = word,
        7 => [plan.timing[ETG], plan.timing[LAG]] = etg_and_lag(rng),
        8 if !plan.gaps.is_empty() => plan.gaps[gap] = word,
        _ => repeat(rng, plan, tallies),
    }
}

fn hurt_plan(rng: &mut Rng, tallies: &mut ByEdition) -> Plan {
    let mut plan = plan(rng);
    // P first, while the constants are right, and often P alone.
    let least = if rng.one_in(4) {
        plan.timing[P] = other_slot(rng, &plan);
        0
    } else {
        1
    };
    for _ in 0..least + rng.pick(&[0, 0, 0, 1, 2]) {
        hurt(rng, &mut plan, tallies);
    }
    plan
}

// ---- the writer ----

/// The plan that lent words are. Counts above a plan's are cut, since one too many is as wrong as all of them.
fn plan_from(n: usize, m: usize, values: &[u32]) -> Plan {
    let (n, m) = (n.min(MOST_STREAMS + 1), m.min(9));
    let word = |k: usize| values.get(k).copied().unwrap_or(0);
    let streams = (0..n).map(|row| {
        let [label, priority, period, jitter, payload, deadline, acknowledgement] =
            std::array::from_fn(|k| word(10 + 7 * row + k));
        Stream { acknowledgement, ..stream(label, priority, period, jitter, payload, deadline) }
    });
    Plan { timing: std::array::from_fn(word), streams: streams.collect(), gaps: (0..m).map(|k| word(10 + 7 * n + k)).collect() }
}

fn reads_back(plan: &Plan, file: &[u8]) {
    assert_eq!(file, written_of(plan), "{plan:?}");
    assert_eq!(plain::read(file), Ok(as_read(plan)));
    let mut again = vec![0; file.len()];
    assert_eq!(livnakesh::rewrite(file, &mut again), Ok(file.len()), "{plan:?}");
    assert_eq!(again, file, "{plan:?}");
}

fn write_into(found: &[u8], n: usize, m: usize, values: &[u32], tallies: &mut ByEdition) -> Result<usize, Refused> {
    let plan = plan_from(n, m, values);
    let tally = tallies.of(&plan);
    let mut ours = found.to_vec();
    // At an odd address, since lent bytes need not be aligned.
    let mut odd = [&[0], found].concat();
    let said = livnakesh::write(n, m, values, &mut odd[1..]);
    let case = || format!("write, {n} streams, {m} gaps, {} bytes lent: {values:?}", found.len());
    assert_eq!(said, plain::write(&plan, &mut ours), "{}", case());
    assert_eq!(odd[1..], ours, "{}", case());
    let written = said.unwrap_or(0);
    assert_eq!(odd[1 + written..], found[written..], "bytes after the file: {}", case());
    if written > 0 {
        reads_back(&plan, &odd[1..=written]);
        tally.count("read back");
    }
    tally_said(tally, &plan, said);
    tally_counts(tally, n, m);
    said
}

fn write_alike(rng: &mut Rng, n: usize, m: usize, values: &[u32], tallies: &mut ByEdition) -> Result<usize, Refused> {
    let plan = plan_from(n, m, values);
    let found = bytes(rng.next(), lent(rng, size(&plan), tallies.of(&plan)));
    write_into(&found, n, m, values, tallies)
}

#[test]
fn values_of_drawn_plans() {
    let (mut rng, mut tallies) = (Rng(0x7A1E5), ByEdition::default());
    for _ in 0..120_000 {
        let plan = if rng.one_in(4) { edge_plan(&mut rng) } else { plan(&mut rng) };
        let (n, m) = (plan.streams.len(), plan.gaps.len());
        tally_lag(tallies.of(&plan), &plan);
        let mut values = values_of(&plan);
        let more = rng.pick(&[0, 0, 1, 7, 500]);
        tallies.of(&plan).count(if more == 0 { "words: as many as needed" } else { "words: more" });
        values.extend((0..more).map(|_| rng.wide()));
        let said = write_alike(&mut rng, n, m, &values, &mut tallies);
        assert!(matches!(said, Ok(_) | Err(Refused { number: 6, place: 0 })), "{said:?} for {values:?}");
    }
    tallies.print("values of drawn plans to the writer");
    need_all(&tallies.many, &["counts: 65 to 255 streams", "counts: 256 streams", "read back", "refusal 6"], 200);
    tallies.need_all(&["answered", "read back", "words: as many as needed", "words: more"], 10_000);
    tallies.need_all(&["refusal 6", "lent: too short", "lent: exact", "lent: longer"], 5_000);
    tallies.need_all(&["LAG: 0", "LAG: fits", "LAG: just fits"], 5_000);
}

/// All numbers of streams and gaps, each into a byte too few, as many as needed, and a byte more. From 65 streams on there is one edition.
#[test]
fn buffers_a_byte_short() {
    let (mut rng, mut tallies) = (Rng(0xB17E), ByEdition::default());
    for edition in EDITIONS {
        for n in 1..=most_streams(edition) {
            for m in 0..=8 {
                let values = values_of(&plan_in(&mut rng, edition, n, m));
                let needed = 84 + 28 * n + 4 * m;
                for length in [0, needed - 1, needed, needed + 1] {
                    let said = write_into(&bytes(rng.next(), length), n, m, &values, &mut tallies);
                    let wanted = if length < needed { Err(Refused { number: 6, place: 0 }) } else { Ok(needed) };
                    assert_eq!(said, wanted, "{edition:?}, {n} streams, {m} gaps, {length} bytes");
                }
            }
        }
    }
    tallies.print("buffers a byte short, exact and a byte long");
    tallies.need_all(&["answered", "refusal 6"], 1_152);
    tallies.many.need("counts: 256 streams", 36);
}

fn other_count(rng: &mut Rng, count: usize, most: usize) -> usize {
    match rng.below(6) {
        0 => 0,
        1 => rng.below(most as u64 + 1) as usize,
        2 => most + 1,
        3 => rng.pick(&WRONG_COUNTS).max(most + 1),
        4 => count.saturating_sub(1),
        _ => count + 1,
    }
}

/// The words stay, so that a stream's become gaps, gaps become a stream, and words are missing or left over.
#[test]
fn values_with_other_counts() {
    let (mut rng, mut tallies) = (Rng(0xC0047), ByEdition::default());
    for _ in 0..120_000 {
        let plan = plan(&mut rng);
        let (mut n, mut m) = (plan.streams.len(), plan.gaps.len());
        match rng.below(4) {
            0 => m = other_count(&mut rng, m, 8),
            1 => (n, m) = (other_count(&mut rng, n, MOST_STREAMS), other_count(&mut rng, m, 8)),
            _ => n = other_count(&mut rng, n, MOST_STREAMS),
        }
        _ = write_alike(&mut rng, n, m, &values_of(&plan), &mut tallies);
    }
    tallies.print("values with other counts to the writer");
    need_all(&tallies.many, &["counts: 65 to 255 streams", "counts: 257 streams"], 1_000);
    need_all(&tallies.many, &["counts: 258 to 1,000 streams", "counts: more streams", "refusal 2", "refusal 3"], 1_000);
    need_all(&tallies.many, &["counts: 256 streams", "read back"], 50);
    need_no_streams(&tallies, 1_000);
    tallies.need_all(&["counts: 9 to 1,000 gaps", "counts: more gaps", "refusal 2", "refusal 3", "read back"], 1_000);
}

/// Every number of words up to all of a plan's. What follows them in memory are the missing ones, so that reading on would show.
#[test]
fn too_few_words() {
    let (mut rng, mut tallies) = (Rng(0xFE3), ByEdition::default());
    for _ in 0..900 {
        let plan = plan(&mut rng);
        let (n, m) = (plan.streams.len(), plan.gaps.len());
        let values = values_of(&plan);
        let found = bytes(rng.next(), size(&plan));
        for count in 0..values.len() {
            let said = write_into(&found, n, m, &values[..count], &mut tallies);
            // Not every word may be 0. A deadline and a gap may not, and one of them is last but for an acknowledgement.
            let right = m == 0 && count + 1 == values.len();
            let refused = matches!(said, Err(Refused { number: 3, .. }));
            assert!(if right { said == Ok(found.len()) } else { refused }, "{said:?} for {count} words of {values:?}");
        }
        assert_eq!(write_into(&found, n, m, &values, &mut tallies), Ok(found.len()));
    }
    tallies.print("too few words to the writer");
    tallies.need_all(&["refusal 3", "refusal 3: period", "refusal 3: payload", "refusal 3: deadline"], 1_000);
    tallies.need_all(&["refusal 3: gap", "answered"], 200);
    need_all(&tallies.many, &["counts: 65 to 255 streams", "counts: 256 streams"], 1_000);
    // P is lent after NB, so that without an NB there is no P either.
    tallies.one.need("refusal 3: NB", 900);
}

#[test]
fn wrong_values_to_the_writer() {
    let (mut rng, mut tallies) = (Rng(0x3F0), ByEdition::default());
    for _ in 0..250_000 {
        let plan = hurt_plan(&mut rng, &mut tallies);
        _ = write_alike(&mut rng, plan.streams.len(), plan.gaps.len(), &values_of(&plan), &mut tallies);
    }
    tallies.print("wrong values to the writer");
    need_wrong_values(&tallies);
}

// ---- the screen ----

/// Values have no length of their own, so counts that make a file too long are refused as counts.
fn as_values<T>(file: &[u8], said: Result<T, Refused>) -> Result<T, Refused> {
    if file.len() > LARGEST {
        return Err(Refused { number: 2, place: 0 });
    }
    said
}

/// Of a plan with this timing, lent as these words.
fn screen_into(found: &[u64], plan: &Plan, timing: &[u32], tallies: &mut ByEdition) -> Result<(), Refused> {
    let tally = tallies.of(plan);
    let n = plan.streams.len();
    let file = file_of(plan);
    let (mut proved, mut ours, mut by_file) = (found.to_vec(), found.to_vec(), found.to_vec());
    let said = livnakesh::screen_words(&plan.streams, timing, &plan.gaps, &mut proved);
    let case = || format!("screen, {} timing words, {} answer words lent: {plan:?}", timing.len(), found.len());
    assert_eq!(said, plain::screen(plan, &mut ours), "{}", case());
    assert_eq!(proved, ours, "{}", case());
    assert_eq!(said, as_values(&file, livnakesh::answer_words(&file, &mut by_file)), "{}", case());
    assert_eq!(proved, by_file, "{}", case());
    if said.is_ok() && plan.timing[LAG] > 0 {
        let mut by_written = found.to_vec();
        assert_eq!(livnakesh::answer_words(&written_of(plan), &mut by_written), said, "{}", case());
        assert_eq!(proved, by_written, "{}", case());
        tally.count("answered as what is written");
    }
    let kept = if said.is_ok() { ROW * n } else { 0 };
    assert_eq!(proved[kept..], found[kept..], "words after the answers: {}", case());
    tally_rows(tally, &proved[..kept]);
    tally_said(tally, plan, said);
    tally_no_room(tally, n, found.len(), said);
    tally_counts(tally, n, plan.gaps.len());
    said
}

fn screen_alike(rng: &mut Rng, plan: &Plan, timing: &[u32], tallies: &mut ByEdition) -> Result<(), Refused> {
    let found = lent_words(rng, plan.streams.len(), tallies.of(plan));
    screen_into(&found, plan, timing, tallies)
}

#[test]
fn screens_of_drawn_plans() {
    let (mut rng, mut tallies) = (Rng(0x5C4EE), ByEdition::default());
    for _ in 0..90_000 {
        let draw = if rng.one_in(4) { edge_plan } else { plan };
        let plan = drawn(&mut rng, draw, &mut tallies);
        tally_lag(tallies.of(&plan), &plan);
        let said = screen_alike(&mut rng, &plan, &plan.timing, &mut tallies);
        assert!(matches!(said, Ok(()) | Err(Refused { number: 6, place: 0 })), "{said:?} for {plan:?}");
    }
    tallies.print("screens of drawn plans");
    need_all(&tallies.many, &["counts: 65 to 255 streams", "counts: 256 streams", "answered", "refusal 6"], 100);
    need_all(&tallies.many, &["row: met", "row: missed", "row: none"], 1_000);
    tallies.need_all(&["answered", "row: met", "row: missed", "row: none"], 10_000);
    tallies.need_all(&["refusal 6", "lent: too short", "lent: exact", "lent: longer"], 5_000);
    tallies.need_all(&["refusal 6: room but for the evaluations"], 1_000);
    tallies.need_all(&["LAG: 0", "LAG: fits", "LAG: just fits", "answered as what is written"], 3_000);
    tallies.need_all(&["worst: the second instance", "worst: a later instance"], 300);
}

#[test]
fn words_one_short() {
    let (mut rng, mut tallies) = (Rng(0x3085), ByEdition::default());
    for (edition, n) in EDITIONS.into_iter().flat_map(|edition| (1..=most_streams(edition)).map(move |n| (edition, n))) {
        let plan = loop {
            let plan = plan_in(&mut rng, edition, n, n % 9);
            if is_short(&plan) {
                break plan;
            }
        };
        for length in [0, 3 * n, 4 * n - 1, 4 * n, 4 * n + 1] {
            let said = screen_into(&words(rng.next(), length), &plan, &plan.timing, &mut tallies);
            let wanted = if length < 4 * n { Err(Refused { number: 6, place: 0 }) } else { Ok(()) };
            assert_eq!(said, wanted, "{edition:?}, {n} streams, {length} words");
        }
    }
    tallies.print("answer words three a row, one short, exact and one more");
    tallies.need_all(&["answered", "refusal 6: room but for the evaluations"], 128);
    tallies.many.need("counts: 256 streams", 5);
}

#[test]
fn screens_of_wrong_values() {
    let (mut rng, mut tallies) = (Rng(0x5C4E3), ByEdition::default());
    for _ in 0..300_000 {
        let plan = hurt_plan(&mut rng, &mut tallies);
        if plain::check(&plan).is_ok() && !is_short(&plan) {
            tallies.of(&plan).count("(chains too long, not run)");
            continue;
        }
        _ = screen_alike(&mut rng, &plan, &plan.timing, &mut tallies);
    }
    tallies.print("screens of wrong values");
    need_wrong_values(&tallies);
}

/// Lists that are empty or too long, whatever else is wrong with them.
#[test]
fn screens_of_other_lengths() {
    let (mut rng, mut tallies) = (Rng(0x1E46), ByEdition::default());
    for _ in 0..60_000 {
        let mut plan = drawn(&mut rng, plan, &mut tallies);
        let (n, last) = (plan.streams.len(), plan.streams[0]);
        match rng.below(16) {
            0..=4 => plan.streams.clear(),
            5..=9 => plan.streams.resize(rng.pick(&[257, 258, 259, 512, 512 + n, 1_100]), last),
            10..=13 => plan.gaps.resize(rng.pick(&[9, 10, 16, 256, 256 + 3, 1_100]), 1_000),
            _ => {
                // As many as a plan may have and one more, all of them right; and one more than an older file has.
                plan = plan_of(&mut rng, MOST_STREAMS + 1, 8);
                plan.streams.truncate(rng.pick(&[64, 64, 65, 255, 256, 257]));
                plan.gaps.resize(rng.pick(&[0, 8, 9]), 4_000_000_000);
            }
        }
        if plain::check(&plan).is_ok() && !is_short(&plan) {
            tallies.of(&plan).count("(chains too long, not run)");
            continue;
        }
        _ = screen_alike(&mut rng, &plan, &plan.timing, &mut tallies);
    }
    tallies.print("screens with other numbers of streams and gaps");
    need_all(&tallies.many, &["counts: 257 streams", "counts: 258 to 1,000 streams", "counts: more streams"], 500);
    need_no_streams(&tallies, 500);
    tallies.need_all(&["counts: 9 to 1,000 gaps", "counts: more gaps", "refusal 2"], 500);
    tallies.need_all(&["answered"], 200);
    need_all(&tallies.many, &["counts: 65 to 255 streams", "counts: 256 streams"], 100);
}

/// A plan whose chains are short with its master node and without it.
fn short_either_way(rng: &mut Rng) -> Plan {
    loop {
        let plan = plan(rng);
        let mut without = plan.clone();
        without.timing[P] = 0;
        if is_short(&without) {
            return plan;
        }
    }
}

/// The missing words follow those that are lent, so that reading on would show. Nine words are a plan without a master node.
#[test]
fn timings_of_other_lengths() {
    let (mut rng, mut tallies) = (Rng(0x717), ByEdition::default());
    for _ in 0..3_000 {
        let plan = drawn(&mut rng, short_either_way, &mut tallies);
        let more = [rng.wide(), rng.wide(), rng.wide()];
        let timing = [&plan.timing[..], &more].concat();
        for count in 0..=timing.len() {
            let lent = &timing[..count];
            let plan = Plan { timing: std::array::from_fn(|k| lent.get(k).copied().unwrap_or(0)), ..plan.clone() };
            let said = screen_into(&words(rng.next(), ROW * MOST_STREAMS), &plan, lent, &mut tallies);
            let wanted = if count < 9 { Err(Refused { number: 3, place: 76 }) } else { Ok(()) };
            assert_eq!(said, wanted, "{count} timing words: {plan:?}");
        }
    }
    tallies.print("timings of other lengths");
    need_all(&tallies.many, &["answered", "refusal 3: NB"], 50);
    tallies.need_all(&["answered", "row: met"], 3_000);
    tallies.one.need("refusal 3: NB", 3_000);
    tallies.three.need("refusal 3: NB", 3_000);
}

// ---- ETG and LAG ----

/// Both at and next to their limits, also where more is wrong and where too little memory is lent: the writer and the screen.
#[test]
fn etg_and_lag_as_values() {
    let (mut rng, mut tallies) = (Rng(0x72), ByEdition::default());
    for _ in 0..120_000 {
        let oldest = rng.pick(&EDITIONS);
        let LagCase { plan, short, refused } = lag_case(&mut rng, oldest, Edition::Three, tallies.at(oldest));
        let (n, m, needed) = (plan.streams.len(), plan.gaps.len(), size(&plan));
        let said = write_into(&bytes(rng.next(), needed - short), n, m, &values_of(&plan), &mut tallies);
        assert_eq!(said, refused.map_or(Ok(needed), Err), "{plan:?}");
        if refused.is_some() || is_short(&plan) {
            let said = screen_into(&words(rng.next(), ROW * n - short), &plan, &plan.timing, &mut tallies);
            assert_eq!(said, refused.map_or(Ok(()), Err), "{plan:?}");
        }
    }
    tallies.print("values with ETG and LAG at and next to their limits");
    need_lag_cases(&tallies);
}
