//! The same planner in plain Rust, to compare the proved library with: the tests hold one against the other, and the benchmark takes
//! this one as what ordinary means give. It was written from the rules (docs/RULES.md) and shares no code with the proved one; the
//! order in which `lighter` looks for its reason is ours, and so the same on both sides.

use livnakesh::{Compared, Label, Phase, Priority, Reason, Refused, Row, Stream};

/// F, E, TFCS, SWX, H, G, ETG, LAG, NB and then P, as in the file. P is 0 in a plan without a master node.
pub type Timing = [u32; 10];

pub const ETG: usize = 6;
pub const LAG: usize = 7;
pub const NB: usize = 8;
pub const P: usize = 9;

/// A plan as it is entered, or as it is read: its LAG is then 0.
#[derive(Clone, Debug, PartialEq, Eq)]
pub struct Plan {
    pub timing: Timing,
    pub streams: Vec<Stream>,
    pub gaps: Vec<u32>,
}

const CONTENTS: usize = 44;
const STREAM: usize = 28;
/// Without an acknowledgement.
const OLD_STREAM: usize = 24;
const GAP: usize = 4;
const MOST_GAPS: usize = 8;
const LARGEST: usize = WRITTEN.size(WRITTEN.most_streams(), MOST_GAPS);
const LONGEST_SLOT: u32 = 5_000_000;

/// The words of a row's answer: its verdict, its bound, the instance that gives it, and the evaluations in the search for L.
pub const ROW: usize = 4;

/// The longest busy period that counts.
const HORIZON: u64 = u32::MAX as u64;

fn refused<T>(number: u64, place: usize) -> Result<T, Refused> {
    Err(Refused { number, place: place as u64 })
}

// ---- the plan file ----

/// What a file says first. The first edition is for plans without a master node and the second for plans with one; the third is for
/// both, and has acknowledgements and more streams.
#[derive(Clone, Copy, Debug, PartialEq, Eq)]
pub enum Edition {
    One = 1,
    Two = 2,
    Three = 3,
}

/// The only edition that is written; lent values have its places.
const WRITTEN: Edition = Edition::Three;

impl Edition {
    fn of(file: &[u8]) -> Option<Edition> {
        match word(file) {
            1 => Some(Edition::One),
            2 => Some(Edition::Two),
            3 => Some(Edition::Three),
            _ => None,
        }
    }

    const fn most_streams(self) -> usize {
        match self {
            Edition::One | Edition::Two => 64,
            Edition::Three => 256,
        }
    }

    const fn timing_words(self) -> usize {
        match self {
            Edition::One => P,
            Edition::Two | Edition::Three => P + 1,
        }
    }

    /// The least P, and 0 where there may be no master node.
    const fn least_slot(self) -> u32 {
        match self {
            Edition::Two => 1,
            Edition::One | Edition::Three => 0,
        }
    }

    /// The bytes of a stream's record.
    const fn record(self) -> usize {
        match self {
            Edition::One | Edition::Two => OLD_STREAM,
            Edition::Three => STREAM,
        }
    }

    /// Where the streams start.
    const fn streams(self) -> usize {
        CONTENTS + 4 * self.timing_words()
    }

    /// The bytes of a file of so many streams and gaps.
    const fn size(self, streams: usize, gaps: usize) -> usize {
        self.streams() + self.record() * streams + GAP * gaps
    }

    fn contents(self, streams: usize, gaps: usize) -> [u32; 11] {
        let start = self.streams() as u32;
        let stream_bytes = (self.record() * streams) as u32;
        let gap_bytes = (GAP * gaps) as u32;
        [self as u32, 3, 1, 44, start - 44, 2, start, stream_bytes, 3, start + stream_bytes, gap_bytes]
    }
}

fn word(bytes: &[u8]) -> u32 {
    u32::from_le_bytes([bytes[0], bytes[1], bytes[2], bytes[3]])
}

fn counts_fit(edition: Edition, streams: usize, gaps: usize) -> bool {
    (1..=edition.most_streams()).contains(&streams) && gaps <= MOST_GAPS
}

/// A file's edition and how many streams it has, if its length and contents are right.
fn contents(file: &[u8]) -> Result<(Edition, usize), Refused> {
    if file.len() < CONTENTS || file.len() > LARGEST {
        return refused(1, 0);
    }
    let Some(edition) = Edition::of(file) else {
        return refused(2, 0);
    };
    let streams = word(&file[28..]) as usize / edition.record();
    let gaps = word(&file[40..]) as usize / GAP;
    if !counts_fit(edition, streams, gaps) || file.len() != edition.size(streams, gaps) {
        return refused(2, 0);
    }
    let wanted = edition.contents(streams, gaps);
    match file.chunks_exact(4).zip(wanted).all(|(bytes, wanted)| word(bytes) == wanted) {
        true => Ok((edition, streams)),
        false => refused(2, 0),
    }
}

fn timing(words: &[u8]) -> Timing {
    let mut timing = [0; P + 1];
    for (value, bytes) in timing.iter_mut().zip(words.chunks_exact(4)) {
        *value = word(bytes);
    }
    timing
}

/// Of a known length, so that the words need no checks of their own.
fn stream<const LENGTH: usize>(record: &[u8; LENGTH]) -> Stream {
    Stream {
        label: Label(word(record)),
        priority: Priority(word(&record[4..])),
        period: word(&record[8..]),
        jitter: word(&record[12..]),
        payload: word(&record[16..]),
        deadline: word(&record[20..]),
        // An old record ends here.
        acknowledgement: record.get(OLD_STREAM..STREAM).map_or(0, word),
    }
}

fn streams<const LENGTH: usize>(mut records: &[u8], count: usize) -> Vec<Stream> {
    let mut streams = Vec::with_capacity(count);
    while let Some((record, rest)) = records.split_first_chunk::<LENGTH>() {
        streams.push(stream(record));
        records = rest;
    }
    streams
}

/// All that a LAG means: it is added to ETG, and is 0 from then on. Of right constants alone, as others may be too great for the sum.
fn folded(mut timing: Timing) -> Timing {
    timing[ETG] += timing[LAG];
    timing[LAG] = 0;
    timing
}

pub fn read(file: &[u8]) -> Result<Plan, Refused> {
    let (edition, count) = contents(file)?;
    let (head, bodies) = file.split_at(edition.streams());
    let (records, gaps) = bodies.split_at(edition.record() * count);
    let plan = Plan {
        timing: timing(&head[CONTENTS..]),
        streams: match edition {
            Edition::One | Edition::Two => streams::<OLD_STREAM>(records, count),
            Edition::Three => streams::<STREAM>(records, count),
        },
        gaps: gaps.chunks_exact(GAP).map(word).collect(),
    };
    check_as(edition, &plan)?;
    Ok(Plan { timing: folded(plan.timing), ..plan })
}

fn fits(value: u32, least: u32, most: u32) -> bool {
    (least..=most).contains(&value)
}

/// The field of a stream, counted from 0, that is outside its limits.
fn bad_field(stream: &Stream, most_priority: u32) -> Option<usize> {
    match stream {
        s if s.priority.0 > most_priority => Some(1),
        s if s.period == 0 => Some(2),
        s if !fits(s.payload, 1, 65_535) => Some(4),
        s if s.deadline == 0 => Some(5),
        s if s.acknowledgement > 65_535 => Some(6),
        _ => None,
    }
}

/// The byte offset of the first field that is outside its limits, in a file of this edition.
fn bad_byte(edition: Edition, plan: &Plan) -> Option<usize> {
    let constants = &plan.timing[..NB];
    if let Some(k) = constants.iter().position(|&c| c > 65_535) {
        return Some(CONTENTS + 4 * k);
    }
    let bits = plan.timing[NB];
    if !fits(bits, 1, 32) {
        return Some(CONTENTS + 4 * NB);
    }
    if !fits(plan.timing[P], edition.least_slot(), LONGEST_SLOT) {
        return Some(CONTENTS + 4 * P);
    }
    let most_priority = u32::MAX >> (32 - bits);
    for (row, stream) in plan.streams.iter().enumerate() {
        if let Some(field) = bad_field(stream, most_priority) {
            return Some(edition.size(row, 0) + 4 * field);
        }
    }
    let gap = plan.gaps.iter().position(|&gap| gap == 0)?;
    Some(edition.size(plan.streams.len(), gap))
}

/// So many rows are looked through in less time than a table is cleared.
const FEW: usize = 16;

/// Twice as many places as there are rows, so that a free one is near. A power of 2.
const TABLE: usize = 2 * WRITTEN.most_streams();

/// The words met so far, each plus 1; 0 is a free place.
struct Met([u64; TABLE]);

impl Met {
    /// Whether the word is new.
    fn enter(&mut self, word: u32) -> bool {
        let entry = u64::from(word) + 1;
        // The top bits of such a product lie apart, also for words next to one another.
        let product = entry.wrapping_mul(0x9E37_79B9_7F4A_7C15);
        let mut at = (product >> (64 - TABLE.trailing_zeros())) as usize;
        while self.0[at] != 0 && self.0[at] != entry {
            at = (at + 1) % TABLE;
        }
        let new = self.0[at] == 0;
        self.0[at] = entry;
        new
    }
}

/// The lowest row that repeats an earlier row, of no more than a plan may have.
fn repeat(values: impl ExactSizeIterator<Item = u32>) -> Option<usize> {
    if values.len() <= FEW {
        return repeat_of_few(values);
    }
    let mut met = Met([0; TABLE]);
    values.enumerate().find(|&(_, value)| !met.enter(value)).map(|(row, _)| row)
}

fn repeat_of_few(values: impl Iterator<Item = u32>) -> Option<usize> {
    let mut seen = [0; FEW];
    for (row, value) in values.enumerate() {
        if seen[..row].contains(&value) {
            return Some(row);
        }
        seen[row] = value;
    }
    None
}

/// The lowest row whose message does not fit in a slot.
fn too_long(plan: &Plan) -> Option<usize> {
    let slot = slot(&plan.timing)?;
    let setup = setup(&plan.timing);
    plan.streams.iter().position(|s| setup + acknowledged(s) > slot)
}

/// Refusals 2, 3, 11, 4, 5 and then 10, for lent values.
pub fn check(plan: &Plan) -> Result<(), Refused> {
    check_as(WRITTEN, plan)
}

/// By the edition of a file, which decides on its places, on its most streams and on whether its P may be 0.
fn check_as(edition: Edition, plan: &Plan) -> Result<(), Refused> {
    if !counts_fit(edition, plan.streams.len(), plan.gaps.len()) {
        return refused(2, 0);
    }
    if let Some(byte) = bad_byte(edition, plan) {
        return refused(3, byte);
    }
    if folded(plan.timing)[ETG] > 65_535 {
        return refused(11, CONTENTS + 4 * ETG);
    }
    if let Some(row) = repeat(plan.streams.iter().map(|s| s.priority.0)) {
        return refused(4, row);
    }
    if let Some(row) = repeat(plan.streams.iter().map(|s| s.label.0)) {
        return refused(5, row);
    }
    match too_long(plan) {
        Some(row) => refused(10, row),
        None => Ok(()),
    }
}

fn put(buffer: &mut [u8], words: &[u32]) {
    for (bytes, word) in buffer.chunks_exact_mut(4).zip(words) {
        bytes.copy_from_slice(&word.to_le_bytes());
    }
}

fn put_plan(plan: &Plan, file: &mut [u8]) {
    let (head, bodies) = file.split_at_mut(WRITTEN.streams());
    put(head, &WRITTEN.contents(plan.streams.len(), plan.gaps.len()));
    put(&mut head[CONTENTS..], &folded(plan.timing));
    let (records, gaps) = bodies.split_at_mut(STREAM * plan.streams.len());
    for (record, s) in records.chunks_exact_mut(STREAM).zip(&plan.streams) {
        put(record, &[s.label.0, s.priority.0, s.period, s.jitter, s.payload, s.deadline, s.acknowledgement]);
    }
    put(gaps, &plan.gaps);
}

/// Writes a plan whose values are known to be right.
fn write_checked(plan: &Plan, buffer: &mut [u8]) -> Result<usize, Refused> {
    let length = WRITTEN.size(plan.streams.len(), plan.gaps.len());
    match buffer.get_mut(..length) {
        Some(file) => {
            put_plan(plan, file);
            Ok(length)
        }
        None => refused(6, 0),
    }
}

pub fn write(plan: &Plan, buffer: &mut [u8]) -> Result<usize, Refused> {
    check(plan)?;
    write_checked(plan, buffer)
}

pub fn rewrite(file: &[u8], buffer: &mut [u8]) -> Result<usize, Refused> {
    write_checked(&read(file)?, buffer)
}

// ---- the bound ----

/// V, the time before a tournament's bits.
pub fn before(timing: &Timing) -> u64 {
    let [f, e, tfcs, swx, h, ..] = timing.map(u64::from);
    f + e + tfcs.max(swx) + h
}

/// U, the time that a tournament's bits take.
pub fn overhead(timing: &Timing) -> u64 {
    let [_, _, _, _, h, g, etg, _, bits, _] = folded(*timing).map(u64::from);
    g + (h + g) * bits + etg
}

/// P, from one pulse of the master node to the next.
pub fn slot(timing: &Timing) -> Option<u64> {
    (timing[P] > 0).then_some(u64::from(timing[P]))
}

/// C + K, a message with its acknowledgement.
pub fn acknowledged(stream: &Stream) -> u64 {
    u64::from(stream.payload) + u64::from(stream.acknowledgement)
}

/// What C'' has beside C + K. A pulse stands for all of V but H.
pub fn setup(timing: &Timing) -> u64 {
    let [_, _, _, _, h, ..] = timing.map(u64::from);
    let start = if slot(timing).is_some() { h } else { before(timing) };
    start + overhead(timing)
}

/// A stream as its level sees it.
#[derive(Clone, Copy, Default)]
pub struct Load {
    pub period: u64,
    pub jitter: u64,
    /// How long a message keeps the others waiting: C'', or the whole of its slot.
    pub cost: u64,
    /// C'', the last term of the bound.
    pub last: u64,
    /// Jitter and period less 1: a floor over the window and this is the ceiling over the window and jitter.
    slack: u64,
}

impl Load {
    fn new(stream: &Stream, setup: u64, slot: Option<u64>) -> Load {
        let period = u64::from(stream.period);
        let jitter = u64::from(stream.jitter);
        let last = setup + acknowledged(stream);
        Load { period, jitter, cost: slot.unwrap_or(last), last, slack: jitter + period - 1 }
    }

    /// At most 2^33 instances of at most 5,000,000 ticks, so that 256 of them, and the hits too, stay below 2^64.
    fn demand(&self, window: u64) -> u64 {
        (window + self.slack) / self.period * self.cost
    }
}

/// How late a stream's messages can be, and which of them is as late as that: the first such instance.
#[derive(Clone, Copy, Debug, PartialEq, Eq)]
pub struct Worst {
    pub bound: u64,
    pub instance: u64,
}

/// What the search for L came to.
#[derive(Clone, Copy, Debug, PartialEq, Eq)]
pub struct Search {
    /// L, if it is within the horizon.
    pub busy_period: Option<u64>,
    /// How often the right side was evaluated, the last time included.
    pub evaluations: u64,
}

/// A stream with all that bears on it.
pub struct Level<'a> {
    pub row: usize,
    pub own: Load,
    urgent: &'a [Load],
    gaps: &'a [u64],
    blocking: u64,
    /// The largest cost among the stream and the more urgent ones, which a hit may cost.
    dearest: u64,
    /// How long after a start a release still joins: V, or 0 after a pulse.
    before: u64,
}

impl Level<'_> {
    fn noise(&self, window: u64) -> u64 {
        let hits: u64 = self.gaps.iter().map(|&gap| window.div_ceil(gap)).sum();
        hits * self.dearest
    }

    fn urgent_demand(&self, window: u64) -> u64 {
        self.urgent.iter().map(|load| load.demand(window)).sum()
    }

    /// The right side of the busy period's equation.
    pub fn busy_step(&self, length: u64) -> u64 {
        self.blocking + self.urgent_demand(length) + self.own.demand(length) + self.noise(length)
    }

    /// The right side of the equation of w(q).
    pub fn wait_step(&self, q: u64, wait: u64) -> u64 {
        let urgent = self.urgent_demand(wait + self.before + 1);
        self.blocking + q * self.own.cost + urgent + self.noise(wait + self.own.cost)
    }

    /// Looks for L. From 1, since 0 may solve the equation too.
    pub fn search(&self) -> Search {
        let (mut length, mut evaluations) = (1, 0);
        loop {
            let next = self.busy_step(length);
            evaluations += 1;
            if next > HORIZON {
                return Search { busy_period: None, evaluations };
            }
            if next == length {
                return Search { busy_period: Some(length), evaluations };
            }
            length = next;
        }
    }

    /// L, if it is within the horizon.
    pub fn busy_period(&self) -> Option<u64> {
        self.search().busy_period
    }

    /// The most evaluations of a search that finds this. Each but the last raises the chain by the cheapest message or more.
    pub fn limit(&self, busy_period: Option<u64>) -> u64 {
        let cheapest = self.urgent.iter().fold(self.own.cost, |cheapest, load| cheapest.min(load.cost));
        busy_period.unwrap_or(HORIZON) / cheapest + 1
    }

    /// Q, the instances in a busy period.
    pub fn instances(&self, busy_period: u64) -> u64 {
        (busy_period + self.own.slack) / self.own.period
    }

    /// w(q), if it is known to be no less than `from`.
    pub fn wait(&self, q: u64, from: u64) -> u64 {
        let mut wait = from;
        loop {
            let next = self.wait_step(q, wait);
            if next == wait {
                return wait;
            }
            wait = next;
        }
    }

    /// How late instance q is, if it waits so long: within a busy period, so that the numbers stay below 2^33.
    pub fn term(&self, q: u64, wait: u64) -> i64 {
        (self.own.jitter + wait + self.own.last) as i64 - (q * self.own.period) as i64
    }

    pub fn worst(&self) -> Option<Worst> {
        self.busy_period().map(|length| self.worst_within(length))
    }

    fn worst_within(&self, busy_period: u64) -> Worst {
        let instances = self.instances(busy_period);
        let mut wait = self.wait(0, 0);
        let (mut largest, mut instance) = (self.term(0, wait), 0);
        for q in 1..instances {
            // An instance waits at least for the whole of the one before it.
            wait = self.wait(q, wait + self.own.cost);
            let term = self.term(q, wait);
            // Of instances that are equally late the first is told.
            if term > largest {
                (largest, instance) = (term, q);
            }
        }
        Worst { bound: largest as u64, instance }
    }
}

/// A plan's streams from the most urgent down, so that those more urgent than one are all before it.
pub struct Analysis {
    rows: Vec<usize>,
    loads: Vec<Load>,
    gaps: Vec<u64>,
    /// For each stream, B and the dearest cost.
    extremes: Vec<(u64, u64)>,
    before: u64,
}

impl Analysis {
    pub fn new(plan: &Plan) -> Analysis {
        let (setup, slot) = (setup(&plan.timing), slot(&plan.timing));
        let mut rows: Vec<usize> = (0..plan.streams.len()).collect();
        rows.sort_unstable_by_key(|&row| plan.streams[row].priority);
        let loads: Vec<Load> = rows.iter().map(|&row| Load::new(&plan.streams[row], setup, slot)).collect();
        let gaps = plan.gaps.iter().map(|&gap| u64::from(gap)).collect();
        let (before, extremes) = match slot {
            // Released just after a pulse, a message waits for the next one, the least urgent too.
            Some(slot) => (0, vec![(slot - 1, slot); loads.len()]),
            None => {
                let before = before(&plan.timing);
                (before, extremes(&loads, before))
            }
        };
        Analysis { extremes, rows, loads, gaps, before }
    }

    pub fn levels(&self) -> impl Iterator<Item = Level<'_>> {
        self.rows.iter().zip(&self.extremes).enumerate().map(|(k, (&row, &(blocking, dearest)))| Level {
            row,
            own: self.loads[k],
            urgent: &self.loads[..k],
            gaps: &self.gaps,
            blocking,
            dearest,
            before: self.before,
        })
    }
}

fn extremes(loads: &[Load], before: u64) -> Vec<(u64, u64)> {
    let mut both = vec![(0, 0); loads.len()];
    let mut blocking = 0;
    for (k, load) in loads.iter().enumerate().rev() {
        both[k].0 = blocking;
        blocking = blocking.max(load.cost - before - 1);
    }
    let mut dearest = 0;
    for (k, load) in loads.iter().enumerate() {
        dearest = dearest.max(load.cost);
        both[k].1 = dearest;
    }
    both
}

fn answer(level: &Level, deadline: u32) -> [u64; ROW] {
    let Search { busy_period, evaluations } = level.search();
    match busy_period.map(|length| level.worst_within(length)) {
        None => [2, 0, 0, evaluations],
        Some(Worst { bound, instance }) => [u64::from(bound > u64::from(deadline)), bound, instance, evaluations],
    }
}

/// Answers a plan whose values are known to be right.
fn answer_checked(plan: &Plan, words: &mut [u64]) -> Result<(), Refused> {
    let Some(rows) = words.get_mut(..ROW * plan.streams.len()) else {
        return refused(6, 0);
    };
    for level in Analysis::new(plan).levels() {
        let row = level.row;
        rows[ROW * row..][..ROW].copy_from_slice(&answer(&level, plan.streams[row].deadline));
    }
    Ok(())
}

/// The answers that the screen gets for its values.
pub fn screen(plan: &Plan, words: &mut [u64]) -> Result<(), Refused> {
    check(plan)?;
    answer_checked(plan, words)
}

pub fn answers(file: &[u8], words: &mut [u64]) -> Result<(), Refused> {
    answer_checked(&read(file)?, words)
}

// ---- the lighter plan ----

/// The first gap of the new plan that more of its gaps than of the old plan's are as short as.
pub fn more_noise(old: &[u32], new: &[u32]) -> Option<u32> {
    let as_short = |gaps: &[u32], x: u32| gaps.iter().filter(|&&gap| gap <= x).count();
    new.iter().copied().find(|&x| as_short(new, x) > as_short(old, x))
}

/// Whether each gap of the new plan has its own partner in the old one, no longer than itself; by trying partners.
pub fn partnered(old: &[u32], new: &[u32]) -> bool {
    let mut partner_of = vec![None; old.len()];
    (0..new.len()).all(|source| find_partner(old, new, source, &mut vec![false; old.len()], &mut partner_of))
}

/// An augmenting path: a partner that is taken is given up if its source finds another.
fn find_partner(old: &[u32], new: &[u32], source: usize, tried: &mut [bool], partner_of: &mut [Option<usize>]) -> bool {
    for k in 0..old.len() {
        if tried[k] || old[k] > new[source] {
            continue;
        }
        tried[k] = true;
        let free = match partner_of[k] {
            None => true,
            Some(other) => find_partner(old, new, other, tried, partner_of),
        };
        if free {
            partner_of[k] = Some(source);
            return true;
        }
    }
    false
}

fn harder(old: &Stream, new: &Stream) -> Option<Reason> {
    let label = new.label;
    match new {
        s if s.period < old.period => Some(Reason::ShorterPeriod(label)),
        s if s.jitter > old.jitter => Some(Reason::LongerJitter(label)),
        s if s.payload > old.payload => Some(Reason::LongerPayload(label)),
        s if s.deadline < old.deadline => Some(Reason::ShorterDeadline(label)),
        s if s.acknowledgement > old.acknowledgement => Some(Reason::LongerAcknowledgement(label)),
        _ => None,
    }
}

/// The first stream that another one has overtaken. `places` has for each its old and its new priority.
fn overtaken(places: &[(Priority, Priority)]) -> Option<usize> {
    places.iter().position(|&(old, new)| {
        // Without a branch, as nearly always no stream has overtaken.
        places.iter().fold(false, |found, &(other_old, other_new)| found | ((other_new < new) & (other_old >= old)))
    })
}

/// Of plans as they are read: a greater LAG in a file is a greater ETG here.
fn why_not_lighter(old: &Plan, new: &Plan) -> Option<Reason> {
    if slot(&old.timing).is_some() != slot(&new.timing).is_some() {
        return Some(Reason::MasterNode);
    }
    if let Some(k) = (0..=P).find(|&k| new.timing[k] > old.timing[k]) {
        return Some(Reason::GreaterConstant(k));
    }
    let mut places = Vec::with_capacity(new.streams.len());
    for stream in &new.streams {
        let Some(before) = old.streams.iter().find(|s| s.label == stream.label) else {
            return Some(Reason::NewLabel(stream.label));
        };
        if let Some(reason) = harder(before, stream) {
            return Some(reason);
        }
        places.push((before.priority, stream.priority));
    }
    if let Some(row) = overtaken(&places) {
        return Some(Reason::LessUrgent(new.streams[row].label));
    }
    more_noise(&old.gaps, &new.gaps).map(Reason::MoreNoise)
}

pub fn lighter(first: &[u8], second: &[u8]) -> Compared {
    let old = match read(first) {
        Ok(plan) => plan,
        Err(refused) => return Compared::FirstRefused(refused),
    };
    let new = match read(second) {
        Ok(plan) => plan,
        Err(refused) => return Compared::SecondRefused(refused),
    };
    match why_not_lighter(&old, &new) {
        None => Compared::Lighter,
        Some(reason) => Compared::RunAgain(reason),
    }
}

// ---- the tournament ----

pub const PLACES: usize = 128;

#[derive(Clone, Copy, Debug, PartialEq, Eq)]
pub struct Tournament {
    pub bits: u32,
    pub contenders: usize,
    pub priorities: [Priority; PLACES],
    pub marks: [bool; PLACES],
    pub phase: Phase,
}

fn check_bits(bits: u32, priorities: &[Priority]) -> Result<(), Refused> {
    if !fits(bits, 1, 32) {
        return refused(8, 0);
    }
    let most = u32::MAX >> (32 - bits);
    match priorities.iter().position(|p| p.0 > most) {
        Some(row) => refused(8, row),
        None => Ok(()),
    }
}

fn check_distinct(priorities: &[Priority]) -> Result<(), Refused> {
    match repeat(priorities.iter().map(|p| p.0)) {
        Some(row) => refused(9, row),
        None => Ok(()),
    }
}

/// The bit, counted from 1 at the top, at which two priorities part.
pub fn parting(bits: u32, first: Priority, second: Priority) -> Result<u32, Refused> {
    check_bits(bits, &[first, second])?;
    if first == second {
        return refused(9, 1);
    }
    Ok((first.0 ^ second.0).leading_zeros() - (32 - bits) + 1)
}

impl Tournament {
    pub fn start(bits: u32, priorities: &[Priority]) -> Result<Tournament, Refused> {
        let contenders = priorities.len();
        if contenders == 0 || contenders > PLACES {
            return refused(7, 0);
        }
        check_bits(bits, priorities)?;
        check_distinct(priorities)?;
        let mut places = [Priority(0); PLACES];
        places[..contenders].copy_from_slice(priorities);
        let marks = std::array::from_fn(|row| row < contenders);
        Ok(Tournament { bits, contenders, priorities: places, marks, phase: Phase::AtBit(1) })
    }

    /// Refusals 7 to 9, for a state that a caller made up.
    fn check(&self) -> Result<(), Refused> {
        if self.contenders == 0 || self.contenders > PLACES {
            return refused(7, 0);
        }
        let priorities = &self.priorities[..self.contenders];
        check_bits(self.bits, priorities)?;
        match self.phase {
            Phase::AtBit(bit) if !fits(bit, 1, self.bits) => return refused(8, 0),
            Phase::Finished(row) if row.0 as usize >= self.contenders => return refused(8, 0),
            _ => {}
        }
        check_distinct(priorities)
    }

    /// The state after one more bit.
    pub fn step(&self) -> Result<Tournament, Refused> {
        self.check()?;
        let Phase::AtBit(bit) = self.phase else {
            return Ok(*self);
        };
        let mut next = *self;
        next.silence(bit);
        next.phase = match bit == self.bits {
            true => next.end(),
            false => Phase::AtBit(bit + 1),
        };
        Ok(next)
    }

    fn silence(&mut self, bit: u32) {
        let shift = self.bits - bit;
        let recessive = |p: Priority| p.0 >> shift & 1 == 1;
        let heard = (0..self.contenders).any(|row| self.marks[row] && !recessive(self.priorities[row]));
        for row in 0..self.contenders {
            self.marks[row] &= !(heard && recessive(self.priorities[row]));
        }
    }

    fn end(&self) -> Phase {
        match self.marks[..self.contenders].iter().position(|&mark| mark) {
            Some(row) => Phase::Finished(Row(row as u32)),
            None => Phase::NoWinner,
        }
    }
}
