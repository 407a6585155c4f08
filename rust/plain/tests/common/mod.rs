//! What the tests share: plans by hand, a generator, and counts of what was seen.
#![allow(dead_code)]

use livnakesh::{Answer, Label, Priority, Refused, Stream};
use plain::{self, Analysis, Edition, Level, Plan, ETG, LAG, ROW};
use std::cmp::Ordering;
use std::collections::BTreeMap;
use std::io::Write;

pub const BASE: plain::Timing = [4, 1, 1, 2, 1, 1, 2, 1, 4, 0];

pub const EDITIONS: [Edition; 3] = [Edition::One, Edition::Two, Edition::Three];

/// H's place in the timing.
pub const H: usize = 4;

/// The greatest of the constants F to LAG, and the most that ETG and LAG are together.
pub const GREATEST: u32 = 65_535;

/// The longest P.
pub const LONGEST_SLOT: u32 = 5_000_000;

/// The most streams of a plan, and of one in an older file.
pub const MOST_STREAMS: usize = 256;
pub const MOST_IN_OLD: usize = 64;

/// The longest file, that of 256 streams and 8 gaps in edition 3.
pub const LARGEST: usize = 7_284;

/// The terms that one plan of up to 64 streams may sum up; longer chains have a test of their own.
const MOST_WORK: u64 = 60_000;

/// Without an acknowledgement.
pub fn stream(label: u32, priority: u32, period: u32, jitter: u32, payload: u32, deadline: u32) -> Stream {
    Stream { label: Label(label), priority: Priority(priority), period, jitter, payload, deadline, acknowledgement: 0 }
}

/// Met, with a bound that the first instance gives.
pub fn met(bound: u64) -> Answer {
    met_at(bound, 0)
}

pub fn met_at(bound: u64, instance: u64) -> Answer {
    Answer::Met { bound, instance }
}

/// Missed, with a bound that the first instance gives.
pub fn missed(bound: u64) -> Answer {
    missed_at(bound, 0)
}

pub fn missed_at(bound: u64, instance: u64) -> Answer {
    Answer::Missed { bound, instance }
}

/// A plan's values as plain words, P and K among them whether they are 0 or not.
pub fn values_of(plan: &Plan) -> Vec<u32> {
    words_of(plan, 10, 7)
}

/// A plan's values with so many words of the timing and so many of each stream.
fn words_of(plan: &Plan, timing: usize, stream: usize) -> Vec<u32> {
    let mut words = plan.timing[..timing].to_vec();
    for s in &plan.streams {
        let all = [s.label.0, s.priority.0, s.period, s.jitter, s.payload, s.deadline, s.acknowledgement];
        words.extend(&all[..stream]);
    }
    words.extend(&plan.gaps);
    words
}

/// The file of edition 3 with a plan's values as they are entered, whether they are right or not.
pub fn file_of(plan: &Plan) -> Vec<u8> {
    file_in(Edition::Three, plan)
}

/// A plan as it is read: ETG has what was entered as LAG. Of right constants alone, as others may be too great for the sum.
pub fn as_read(plan: &Plan) -> Plan {
    let [f, e, tfcs, swx, h, g, etg, lag, nb, p] = plan.timing;
    Plan { timing: [f, e, tfcs, swx, h, g, etg + lag, 0, nb, p], ..plan.clone() }
}

/// The file that is written of a plan.
pub fn written_of(plan: &Plan) -> Vec<u8> {
    file_of(&as_read(plan))
}

/// ETG and LAG of a file, which stand in the same place in every edition.
pub fn etg_and_lag_of(file: &[u8]) -> [u32; 2] {
    [68, 72].map(|byte| u32::from_le_bytes(*file[byte..].first_chunk().expect("a file with a timing")))
}

/// The file of a plan in an edition, whether its values are right or not. What the edition has no words for is left out.
pub fn file_in(edition: Edition, plan: &Plan) -> Vec<u8> {
    let (n, m) = (plan.streams.len() as u32, plan.gaps.len() as u32);
    let (contents, values) = match edition {
        Edition::One => ([1, 3, 1, 44, 36, 2, 80, 24 * n, 3, 80 + 24 * n, 4 * m], words_of(plan, 9, 6)),
        Edition::Two => ([2, 3, 1, 44, 40, 2, 84, 24 * n, 3, 84 + 24 * n, 4 * m], words_of(plan, 10, 6)),
        Edition::Three => ([3, 3, 1, 44, 40, 2, 84, 28 * n, 3, 84 + 28 * n, 4 * m], words_of(plan, 10, 7)),
    };
    contents.into_iter().chain(values).flat_map(u32::to_le_bytes).collect()
}

/// The most streams in a file of the edition.
pub fn most_streams(edition: Edition) -> usize {
    match edition {
        Edition::One | Edition::Two => MOST_IN_OLD,
        Edition::Three => MOST_STREAMS,
    }
}

/// The oldest edition that has words for all of a plan.
pub fn oldest(plan: &Plan) -> Edition {
    if plan.streams.len() > MOST_IN_OLD || plan.streams.iter().any(|s| s.acknowledgement > 0) {
        return Edition::Three;
    }
    match plan.timing[plain::P] {
        0 => Edition::One,
        _ => Edition::Two,
    }
}

/// The editions in which a plan has a file: its oldest one, and the one that is written.
pub fn editions_of(plan: &Plan) -> Vec<Edition> {
    match oldest(plan) {
        Edition::Three => vec![Edition::Three],
        old => vec![old, Edition::Three],
    }
}

/// The file of a plan in any of its editions.
pub fn any_file_of(rng: &mut Rng, plan: &Plan) -> Vec<u8> {
    file_in(rng.pick(&editions_of(plan)), plan)
}

/// C'' with a master node, of each row: C' + H. Of right constants alone, as others may be too great for the sum.
pub fn in_slots(plan: &Plan) -> Vec<u32> {
    let beside = plain::overhead(&plan.timing) as u32 + plan.timing[H];
    plan.streams.iter().map(|s| beside + s.payload + s.acknowledgement).collect()
}

/// The shortest slot that all messages fit in.
pub fn shortest_slot(plan: &Plan) -> u32 {
    in_slots(plan).into_iter().max().expect("a plan has streams")
}

pub fn hex(bytes: &[u8]) -> String {
    bytes.iter().map(|byte| format!("{byte:02x}")).collect()
}

/// Xorshift, so that every run draws the same cases.
pub struct Rng(pub u64);

impl Rng {
    pub fn next(&mut self) -> u64 {
        self.0 ^= self.0 << 13;
        self.0 ^= self.0 >> 7;
        self.0 ^= self.0 << 17;
        self.0.wrapping_mul(0x2545_F491_4F6C_DD1D) >> 16
    }

    /// 0 to `count` - 1.
    pub fn below(&mut self, count: u64) -> u64 {
        self.next() % count
    }

    pub fn within(&mut self, least: u64, most: u64) -> u64 {
        least + self.below(most - least + 1)
    }

    pub fn one_in(&mut self, count: u64) -> bool {
        self.below(count) == 0
    }

    pub fn pick<T: Copy>(&mut self, from: &[T]) -> T {
        from[self.below(from.len() as u64) as usize]
    }

    /// A word of any magnitude: as often 3 bits long as 30.
    pub fn wide(&mut self) -> u32 {
        let bits = self.below(33);
        (self.next() & ((1 << bits) - 1)) as u32
    }

    pub fn shuffle<T>(&mut self, items: &mut [T]) {
        for k in (1..items.len()).rev() {
            items.swap(k, self.below(k as u64 + 1) as usize);
        }
    }

    /// Different words, in no order.
    pub fn distinct(&mut self, count: usize, most: u32) -> Vec<u32> {
        let mut found = Vec::new();
        while found.len() < count {
            let word = self.within(0, u64::from(most)) as u32;
            if !found.contains(&word) {
                found.push(word);
            }
        }
        found
    }
}

/// More streams than an older file has, and often as many as there may be.
pub fn many(rng: &mut Rng) -> usize {
    match rng.below(4) {
        0 => rng.pick(&[65, 127, 128, 129, 190, 255]),
        1 => MOST_STREAMS,
        _ => rng.within(65, 256) as usize,
    }
}

/// Many streams are drawn seldom, since their answers take longest.
fn counts(rng: &mut Rng) -> (usize, usize) {
    let n = match rng.below(10) {
        _ if rng.one_in(80) => many(rng) as u64,
        0..=3 => rng.within(1, 4),
        4..=6 => rng.within(1, 16),
        7..=8 => rng.within(1, 64),
        _ => 64,
    };
    let m = if rng.one_in(2) { 0 } else { rng.within(0, 8) };
    (n as usize, m as usize)
}

fn bits_for(rng: &mut Rng, streams: usize) -> u32 {
    let least = (streams as u64).next_power_of_two().trailing_zeros().max(1);
    rng.within(u64::from(least), 32) as u32
}

/// Without a master node.
fn timing(rng: &mut Rng, streams: usize) -> plain::Timing {
    let most = rng.pick(&[0, 3, 20, 20, 1_000, 65_535]);
    let mut timing: plain::Timing = std::array::from_fn(|_| rng.within(0, most) as u32);
    timing[LAG] = lag(rng, timing[LAG], GREATEST - timing[ETG]);
    timing[plain::NB] = bits_for(rng, streams);
    timing[plain::P] = 0;
    timing
}

/// None in a third of all plans; in the others no more than ETG leaves room for, and now and then just that.
fn lag(rng: &mut Rng, drawn: u32, room: u32) -> u32 {
    match rng.below(12) {
        0..=3 => 0,
        4 => room,
        _ => drawn.min(room),
    }
}

/// A slot that all messages fit in, often just so.
fn slot(rng: &mut Rng, shortest: u64) -> u32 {
    let more = match rng.below(6) {
        0 | 1 => 0,
        2 => 1,
        3 => rng.below(20),
        4 => rng.within(0, shortest),
        _ => u64::from(rng.wide()),
    };
    (shortest + more).min(u64::from(LONGEST_SLOT)) as u32
}

/// Whether a plan of the edition is to have a master node.
fn master_node(rng: &mut Rng, edition: Edition) -> bool {
    match edition {
        Edition::One => false,
        Edition::Two => true,
        Edition::Three => rng.one_in(2),
    }
}

/// All 0 in an older edition; in edition 3 about half of them, and never all.
fn acknowledgements(rng: &mut Rng, edition: Edition, count: usize) -> Vec<u32> {
    let mut drawn = vec![0; count];
    if edition == Edition::Three {
        let most = rng.pick(&[1, 10, 100, 1_000, 65_535]);
        drawn.fill_with(|| rng.within(0, most) as u32 * rng.below(2) as u32);
        drawn[rng.below(count as u64) as usize] = rng.pick(&[1, most as u32]);
    }
    drawn
}

fn jitter(rng: &mut Rng, habit: u64, period: u64) -> u32 {
    let most = match habit {
        0 => 0,
        1 => period / 10,
        2 => period,
        3 => period * 6,
        _ => u64::from(rng.wide()),
    };
    rng.within(0, most).min(u64::from(u32::MAX)) as u32
}

fn deadline(rng: &mut Rng, period: u64) -> u32 {
    let ticks = match rng.below(5) {
        0 => period,
        1 => rng.within(1, 3 * period),
        2 => period * rng.within(1, 20),
        3 => period / 2,
        _ => u64::from(rng.wide()),
    };
    ticks.clamp(1, u64::from(u32::MAX)) as u32
}

fn word(ticks: u64) -> u32 {
    ticks.clamp(1, u64::from(u32::MAX)) as u32
}

/// A plan that would be accepted, with a load from light to well above all of the channel. Each edition is the oldest for a third of
/// those with at most 64 streams.
pub fn plan(rng: &mut Rng) -> Plan {
    let (n, m) = counts(rng);
    plan_of(rng, n, m)
}

pub fn plan_of(rng: &mut Rng, n: usize, m: usize) -> Plan {
    let edition = rng.pick(&EDITIONS);
    plan_in(rng, edition, n, m)
}

/// One that the edition is the oldest for, but for the number of its streams.
pub fn plan_in(rng: &mut Rng, edition: Edition, n: usize, m: usize) -> Plan {
    let mut timing = timing(rng, n);
    let most_payload = rng.pick(&[1, 10, 100, 1_000, 65_535]);
    let payloads: Vec<u64> = (0..n).map(|_| rng.within(1, most_payload)).collect();
    let acknowledgements = acknowledgements(rng, edition, n);
    let sent = |k: usize| payloads[k] + u64::from(acknowledgements[k]);
    let longest = (0..n).map(sent).max().expect("a plan has streams");
    let overhead = plain::overhead(&timing);
    if master_node(rng, edition) {
        timing[plain::P] = slot(rng, longest + overhead + u64::from(timing[H]));
    }
    let cost = |sent: u64| match timing[plain::P] {
        0 => plain::before(&timing) + overhead + sent,
        slot => u64::from(slot),
    };
    let load = rng.pick(&[50, 300, 600, 800, 900, 950, 980, 990, 1_000, 1_010, 1_100, 1_500, 4_000]);
    let skew = rng.within(1, 10);
    let weights: Vec<u64> = (0..n).map(|_| rng.within(1, 1 << skew)).collect();
    let all: u64 = weights.iter().sum();
    let habit = rng.below(6);
    let labels = rng.distinct(n, u32::MAX);
    let priorities = rng.distinct(n, u32::MAX >> (32 - timing[plain::NB]));
    let mut streams: Vec<Stream> = Vec::new();
    for k in 0..n {
        let period = cost(sent(k)) * 1_000 * all / (load * weights[k]) + rng.below(3);
        let period = period.clamp(1, u64::from(u32::MAX));
        let jitter = jitter(rng, habit, period);
        let stream = stream(labels[k], priorities[k], period as u32, jitter, payloads[k] as u32, deadline(rng, period));
        streams.push(Stream { acknowledgement: acknowledgements[k], ..stream });
    }
    let hit = cost(longest);
    let share = rng.pick(&[5, 20, 50, 200]);
    let gap = |rng: &mut Rng| match rng.below(8) {
        0 => rng.wide().max(1),
        _ => word(hit * 1_000 * m as u64 / share + rng.below(hit)),
    };
    let gaps = (0..m).map(|_| gap(rng)).collect();
    Plan { timing, streams, gaps }
}

/// A plan of more streams than an older file has.
pub fn many_streams(rng: &mut Rng) -> Plan {
    let (n, m) = (many(rng), rng.below(9) as usize);
    plan_of(rng, n, m)
}

/// A plan with every field at or next to one of its limits.
pub fn edge_plan(rng: &mut Rng) -> Plan {
    let (n, m) = counts(rng);
    let enough = bits_for(rng, n);
    let bits = rng.pick(&[enough, 32]);
    let most = u32::MAX >> (32 - bits);
    let mut timing: plain::Timing = std::array::from_fn(|_| rng.pick(&[0, 0, 1, 65_534, 65_535]));
    [timing[ETG], timing[LAG]] =
        rng.pick(&[[0, 0], [0, 1], [1, 0], [0, 65_534], [1, 65_534], [0, 65_535], [65_534, 0], [65_534, 1], [65_535, 0]]);
    timing[plain::NB] = bits;
    timing[plain::P] = 0;
    let priorities = rng.distinct(n, most);
    let labels = rng.distinct(n, u32::MAX);
    let edition = rng.pick(&EDITIONS);
    let acknowledgements: &[u32] = if edition == Edition::Three { &[0, 1, 65_534, 65_535] } else { &[0] };
    let wide = [1, 2, u32::MAX - 1, u32::MAX];
    let streams = (0..n).map(|k| {
        let priority = if k == 0 && !priorities.contains(&most) { most } else { priorities[k] };
        let jitter = rng.pick(&[0, 1, u32::MAX - 1, u32::MAX]);
        let period = rng.pick(&[1, 2, u32::MAX, u32::MAX, u32::MAX - 1, u32::MAX]);
        let stream = stream(labels[k], priority, period, jitter, rng.pick(&[1, 2, 65_534, 65_535]), rng.pick(&wide));
        Stream { acknowledgement: rng.pick(acknowledgements), ..stream }
    });
    let streams = streams.collect();
    let gaps = (0..m).map(|_| rng.pick(&[1, u32::MAX, u32::MAX, u32::MAX - 1])).collect();
    let mut plan = Plan { timing, streams, gaps };
    if master_node(rng, edition) {
        let shortest = shortest_slot(&plan);
        plan.timing[plain::P] = rng.pick(&[shortest, shortest + 1, LONGEST_SLOT - 1, LONGEST_SLOT]);
    }
    plan
}

/// A P next to C'' of some row, at a limit, or any word; 0 takes the master node away. Of right constants alone.
pub fn other_slot(rng: &mut Rng, plan: &Plan) -> u32 {
    let message = rng.pick(&in_slots(plan));
    match rng.below(4) {
        0 => rng.pick(&[0, 1, LONGEST_SLOT - 1, LONGEST_SLOT, LONGEST_SLOT + 1, u32::MAX]),
        1 => rng.wide(),
        _ => rng.pick(&[message - 1, message, message + 1]),
    }
}

/// An ETG and a LAG at or next to the limits of each and of both together; or a sum that is small again where it is cut to 32 bits.
pub fn etg_and_lag(rng: &mut Rng) -> [u32; 2] {
    let etg = rng.within(1, 65_534) as u32;
    let any = rng.within(0, 65_535) as u32;
    match rng.below(9) {
        0 => [any, 0],
        1 => [etg, rng.below(u64::from(GREATEST - etg)) as u32],
        2 => rng.pick(&[[etg, 65_535 - etg], [0, 65_535]]),
        3 => rng.pick(&[[etg, 65_536 - etg], [1, 65_535], [65_535, 1]]),
        4 => [65_535, 65_535],
        5 => rng.pick(&[[65_535, 2 + any / 2], [2 + any / 2, 65_535]]),
        6 => [65_536, rng.pick(&[0, any, 65_535, 65_536])],
        7 => [rng.pick(&[0, any, 65_535]), 65_536],
        _ => rng.pick(&[[u32::MAX, 1], [1, u32::MAX], [65_535, u32::MAX], [1 << 31, 1 << 31]]),
    }
}

/// What an ETG and a LAG are refused for, if every other field is right.
fn refused_for(etg: u32, lag: u32) -> Option<Refused> {
    match (etg, lag) {
        (65_536.., _) => Some(Refused { number: 3, place: 68 }),
        (_, 65_536..) => Some(Refused { number: 3, place: 72 }),
        _ if etg + lag > GREATEST => Some(Refused { number: 11, place: 68 }),
        _ => None,
    }
}

/// How great ETG and LAG are as they are entered.
pub fn tally_lag(tally: &mut Tally, plan: &Plan) {
    tally.count(match (plan.timing[ETG], plan.timing[LAG]) {
        (65_536.., _) => "ETG: above its limit",
        (_, 65_536..) => "LAG: above its limit",
        (_, 0) => "LAG: 0",
        (65_535, 65_535) => "LAG: at its limit, and ETG too",
        (etg, lag) => match etg + lag {
            0..=65_534 => "LAG: fits",
            65_535 => "LAG: just fits",
            65_536 => "LAG: 1 too great for ETG",
            _ => "LAG: too great for ETG",
        },
    });
}

/// The byte of a stream's field in a file of the edition; gaps follow the streams.
fn byte_in(edition: Edition, row: usize, field: usize) -> usize {
    match edition {
        Edition::One => 80 + 24 * row + 4 * field,
        Edition::Two => 84 + 24 * row + 4 * field,
        Edition::Three => 84 + 28 * row + 4 * field,
    }
}

/// The order in which a plan is refused.
const STATED: [u64; 8] = [1, 2, 3, 11, 4, 5, 10, 6];

/// A plan with an ETG and a LAG at or next to their limits, and often with more that is wrong.
pub struct LagCase {
    pub plan: Plan,
    /// How many bytes or words too few are lent.
    pub short: usize,
    /// The first refusal that fits, in the stated order.
    pub refused: Option<Refused>,
}

/// Of a plan that `oldest` is the oldest edition for, with the places of its file of `edition`.
pub fn lag_case(rng: &mut Rng, oldest: Edition, edition: Edition, tally: &mut Tally) -> LagCase {
    let (n, m, short) = (rng.within(1, 5) as usize, rng.below(3) as usize, rng.below(2) as usize);
    let (mut plan, [etg, lag]) = (plan_in(rng, oldest, n, m), etg_and_lag(rng));
    let mut wrong = Vec::from_iter(refused_for(etg, lag));
    let mut add = |number: u64, place: usize| wrong.push(Refused { number, place: place as u64 });
    if short > 0 {
        add(6, 0);
    }
    if plan.timing[plain::P] > 0 {
        [plan.timing[ETG], plan.timing[LAG]] = [etg.min(GREATEST), lag.min(GREATEST)];
        let slot = (shortest_slot(&plan) - rng.below(2) as u32).max(1);
        if let Some(row) = in_slots(&plan).iter().position(|&message| message > slot) {
            add(10, row);
        }
        plan.timing[plain::P] = slot;
    }
    [plan.timing[ETG], plan.timing[LAG]] = [etg, lag];
    if n > 1 && rng.one_in(4) {
        plan.streams[n - 1].priority = plan.streams[0].priority;
        add(4, n - 1);
    }
    if n > 1 && rng.one_in(4) {
        plan.streams[n - 1].label = plan.streams[0].label;
        add(5, n - 1);
    }
    match rng.below(10) {
        0 => {
            let k = rng.below(6) as usize;
            plan.timing[k] = 65_536;
            add(3, 44 + 4 * k);
        }
        1 => {
            plan.timing[plain::NB] = 33;
            add(3, 76);
        }
        2 => {
            plan.streams[n - 1].payload = 0;
            add(3, byte_in(edition, n - 1, 4));
        }
        3 if m > 0 => {
            plan.gaps[m - 1] = 0;
            add(3, byte_in(edition, n, m - 1));
        }
        _ => {}
    }
    wrong.sort_by_key(|refused| (STATED.iter().position(|&number| number == refused.number), refused.place));
    for later in wrong.iter().skip(1) {
        tally.count(format!("{}, and {}", told(wrong[0]), later.number));
    }
    let refused = wrong.first().copied();
    tally_lag(tally, &plan);
    tally_refusal(tally, refused.map_or(Ok(()), Err));
    LagCase { plan, short, refused }
}

/// A refusal, and for 3 where its field stands.
fn told(refused: Refused) -> String {
    match (refused.number, refused.place) {
        (3, ..68) => "3 before ETG".into(),
        (3, 68) => "3 of ETG".into(),
        (3, 72) => "3 of LAG".into(),
        (3, _) => "3 after LAG".into(),
        (number, _) => number.to_string(),
    }
}

/// Every ETG and LAG that is told apart, and the refusals before and after 11 beside it.
pub fn need_lag_cases(tallies: &ByEdition) {
    tallies.need_all(&["LAG: 0", "LAG: fits", "LAG: just fits", "LAG: 1 too great for ETG", "LAG: too great for ETG"], 1_000);
    tallies.need_all(&["LAG: at its limit, and ETG too", "ETG: above its limit", "LAG: above its limit"], 1_000);
    tallies.need_all(&["answered", "refusal 6", "refusal 11", "11, and 4", "11, and 5", "11, and 6"], 1_000);
    tallies.need_slotted(&["11, and 10"], 1_000);
    tallies.need_all(&["3 before ETG, and 11", "3 after LAG, and 11", "3 of ETG, and 6", "3 of LAG, and 6"], 1_000);
}

/// How many streams there are, right or wrong.
pub fn tally_streams(tally: &mut Tally, plan: &Plan) {
    tally.count(match plan.streams.len() {
        0 => "streams: none",
        1 => "streams: 1",
        2..=15 => "streams: 2 to 15",
        16..=63 => "streams: 16 to 63",
        64 => "streams: 64",
        65..=127 => "streams: 65 to 127",
        128..=255 => "streams: 128 to 255",
        256 => "streams: 256",
        _ => "streams: too many",
    });
}

/// All numbers of streams that an older file has not.
pub const MANY: [&str; 3] = ["streams: 65 to 127", "streams: 128 to 255", "streams: 256"];

/// How long a slot is beside the longest message, or that there is none.
pub fn tally_slot(tally: &mut Tally, plan: &Plan) {
    tally.count(match plan.timing[plain::P] {
        0 => "slot: none",
        slot => match slot.cmp(&shortest_slot(plan)) {
            Ordering::Less => "slot: too short",
            Ordering::Equal => "slot: just long enough",
            Ordering::Greater => "slot: longer",
        },
    });
}

/// How long each stream's acknowledgement is.
pub fn tally_acknowledgements(tally: &mut Tally, plan: &Plan) {
    for s in &plan.streams {
        tally.count(match s.acknowledgement {
            0 => "K: 0",
            1..=100 => "K: 1 to 100",
            101..=65_534 => "K: 101 to 65,534",
            _ => "K: 65,535",
        });
    }
}

/// Whether a plan's chains are short, so that no case takes for ever. Of many rows the shortest have more terms, by the rows squared.
pub fn is_short(plan: &Plan) -> bool {
    let rows = plan.streams.len() as u64;
    work(plan, MOST_WORK * (rows * rows / 4_096).max(1)).is_some()
}

/// The terms summed up in a plan's chains, or nothing if they are more than `most`.
fn work(plan: &Plan, most: u64) -> Option<u64> {
    let mut left = most;
    for (k, level) in Analysis::new(plan).levels().enumerate() {
        let terms = (k + 1 + plan.gaps.len()) as u64;
        left -= work_at(&level, terms, left)?;
    }
    Some(most - left)
}

fn work_at(level: &Level, terms: u64, most: u64) -> Option<u64> {
    let (mut spent, mut length) = (terms, 1);
    loop {
        let next = level.busy_step(length);
        spent += terms;
        if spent > most {
            return None;
        }
        if next > u64::from(u32::MAX) {
            return Some(spent);
        }
        if next == length {
            break;
        }
        length = next;
    }
    let mut wait = 0;
    for q in 0..level.instances(length) {
        loop {
            let next = level.wait_step(q, wait);
            spent += terms;
            if spent > most {
                return None;
            }
            if next == wait {
                break;
            }
            wait = next;
        }
    }
    Some(spent)
}

/// The terms of a stream's instances, in their order, or nothing if it has no bound.
pub fn terms(level: &Level) -> Option<Vec<i64>> {
    let instances = level.instances(level.busy_period()?);
    let mut wait = 0;
    let term = |q| {
        wait = level.wait(q, wait);
        level.term(q, wait)
    };
    Some((0..instances).map(term).collect())
}

/// Whether several instances share the largest term: only then does it matter that the first of them is told.
pub fn tally_tie(tally: &mut Tally, terms: &[i64]) {
    let largest = terms.iter().max();
    let mut latest = (0..terms.len()).filter(|&q| terms.get(q) == largest);
    match (latest.next(), latest.next()) {
        (Some(0), Some(_)) => tally.count("tie: the first instance and a later one"),
        (Some(_), Some(_)) => tally.count("tie: two later instances"),
        _ => {}
    }
}

pub fn drawn(rng: &mut Rng, draw: fn(&mut Rng) -> Plan, counts: &mut impl Counts) -> Plan {
    loop {
        let plan = draw(rng);
        if is_short(&plan) {
            return plan;
        }
        counts.of(&plan).count("(chains too long, drawn again)");
    }
}

/// A field of one row copied to a later one.
pub fn repeat(rng: &mut Rng, plan: &mut Plan, counts: &mut impl Counts) {
    let n = plan.streams.len() as u64;
    let (from, to) = (rng.below(n) as usize, rng.below(n) as usize);
    match rng.below(3) {
        0 => plan.streams[to].priority = plan.streams[from].priority,
        1 => plan.streams[to].label = plan.streams[from].label,
        _ => plan.streams[to] = plan.streams[from],
    }
    counts.of(plan).count("damage: repeated field");
}

/// How often each kind of case was seen.
#[derive(Default)]
pub struct Tally(BTreeMap<String, u64>);

impl Tally {
    pub fn count(&mut self, kind: impl Into<String>) {
        *self.0.entry(kind.into()).or_default() += 1;
    }

    /// A test that never saw a kind has not tried it.
    pub fn need(&self, kind: &str, least: u64) {
        let seen = self.0.get(kind).copied().unwrap_or(0);
        assert!(seen >= least, "only {seen} cases of {kind}");
    }

    /// Past the test harness, which keeps what a passing test prints to itself.
    pub fn print(&self, title: &str) {
        if self.0.is_empty() {
            return;
        }
        let mut text = format!("\n{title}\n");
        for (kind, seen) in &self.0 {
            text += &format!("{seen:>10}  {kind}\n");
        }
        let mut out = std::io::stdout().lock();
        out.write_all(text.as_bytes()).and_then(|()| out.flush()).expect("standard output is open");
    }
}

pub fn need_all(tally: &Tally, kinds: &[&str], least: u64) {
    for kind in kinds {
        tally.need(kind, least);
    }
}

/// Where the cases of a plan are counted.
pub trait Counts {
    fn of(&mut self, plan: &Plan) -> &mut Tally;
}

impl Counts for Tally {
    fn of(&mut self, _: &Plan) -> &mut Tally {
        self
    }
}

/// A tally for each edition that is the oldest for a plan: without a master node, in slots, and with acknowledgements; and one for
/// plans of more than 64 streams. So none stands in for another.
#[derive(Default)]
pub struct ByEdition {
    pub one: Tally,
    pub two: Tally,
    pub three: Tally,
    pub many: Tally,
}

impl Counts for ByEdition {
    fn of(&mut self, plan: &Plan) -> &mut Tally {
        if plan.streams.len() > MOST_IN_OLD {
            return &mut self.many;
        }
        self.at(oldest(plan))
    }
}

impl ByEdition {
    pub fn at(&mut self, oldest: Edition) -> &mut Tally {
        match oldest {
            Edition::One => &mut self.one,
            Edition::Two => &mut self.two,
            Edition::Three => &mut self.three,
        }
    }

    pub fn need_all(&self, kinds: &[&str], least: u64) {
        need_all(&self.one, kinds, least);
        self.need_slotted(kinds, least);
    }

    /// Of the plans that can have a master node.
    pub fn need_slotted(&self, kinds: &[&str], least: u64) {
        need_all(&self.two, kinds, least);
        need_all(&self.three, kinds, least);
    }

    pub fn print(&self, title: &str) {
        self.one.print(&format!("{title}, no master node"));
        self.two.print(&format!("{title}, in slots"));
        self.three.print(&format!("{title}, acknowledged"));
        self.many.print(&format!("{title}, many streams"));
    }
}

/// Lent lengths around what is needed.
pub fn lent(rng: &mut Rng, needed: usize, tally: &mut Tally) -> usize {
    match rng.below(4) {
        0 => {
            tally.count("lent: too short");
            rng.below(needed as u64) as usize
        }
        1 => {
            tally.count("lent: exact");
            needed
        }
        _ => {
            tally.count("lent: longer");
            needed + rng.within(1, 40) as usize
        }
    }
}

/// Lent words for the answers of so many streams.
pub fn lent_words(rng: &mut Rng, streams: usize, tally: &mut Tally) -> Vec<u64> {
    words(rng.next(), lent(rng, (ROW * streams).max(1), tally))
}

/// A rule that asks for no room for the evaluations would have answered.
pub fn tally_no_room<T>(tally: &mut Tally, streams: usize, lent: usize, said: Result<T, Refused>) {
    if matches!(said, Err(Refused { number: 6, .. })) && lent >= (ROW - 1) * streams {
        tally.count("refusal 6: room but for the evaluations");
    }
}

pub fn words(seed: u64, count: usize) -> Vec<u64> {
    (1..=count as u64).map(|k| seed.wrapping_mul(2 * k + 1)).collect()
}

pub fn bytes(seed: u64, count: usize) -> Vec<u8> {
    words(seed | 1, count).iter().map(|word| (word >> 24) as u8).collect()
}

/// How near to their limit the evaluations of a row are, in a search that found L or none.
pub fn tally_limit(tally: &mut Tally, busy_period: Option<u64>, evaluations: u64, limit: u64) {
    let found = if busy_period.is_some() { "L" } else { "none" };
    let near = match limit - evaluations {
        0 => "at the limit",
        1 => "one below",
        _ => "further below",
    };
    tally.count(format!("{found}: {near}"));
}

pub fn tally_rows(tally: &mut Tally, rows: &[u64]) {
    for row in rows.chunks_exact(ROW) {
        tally.count(["row: met", "row: missed", "row: none"][row[0] as usize]);
        if row[0] != 2 {
            tally_instance(tally, row[2]);
        }
    }
}

pub fn tally_instance(tally: &mut Tally, instance: u64) {
    tally.count(match instance {
        0 => "worst: the first instance",
        1 => "worst: the second instance",
        _ => "worst: a later instance",
    });
}

pub fn tally_refusal<T>(tally: &mut Tally, said: Result<T, Refused>) {
    match said {
        Ok(_) => tally.count("answered"),
        Err(refused) => tally.count(format!("refusal {}", refused.number)),
    }
}
