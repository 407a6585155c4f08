//! The proved library and the plain planner on the same inputs in one process, in turn, the best of several rounds.
//!
//! Lent buffers are not cleared between calls: every call writes its whole answer over the last one, and neither side reads
//! what it finds there. A call goes from the file's bytes to the answer, so it has the reading and all its checks in it. Of a
//! tournament every step is a call of its own, in which both sides check the whole state again.

use livnakesh::{Label, Outcome, Phase, Priority, Row, Stream};
use plain::{self, Plan, Timing, Tournament, ROW};
use std::hint::black_box;
use std::time::{Duration, Instant};

const BASE: Timing = [4, 1, 1, 2, 1, 1, 2, 1, 4, 0];

/// As `BASE` with room for 64 priorities: V is 8 and U is 16.
const BASE_6: Timing = [4, 1, 1, 2, 1, 1, 2, 1, 6, 0];

/// As `BASE_6` with a master node.
const SLOTS_6: Timing = [4, 1, 1, 2, 1, 1, 2, 1, 6, 30];

/// As `BASE` with room for 256 priorities: V is 8 and U is 20.
const BASE_8: Timing = [4, 1, 1, 2, 1, 1, 2, 1, 8, 0];

/// As `BASE_8` with a master node; the longest message has 32 ticks.
const SLOTS_8: Timing = [4, 1, 1, 2, 1, 1, 2, 1, 8, 34];

const MOST_STREAMS: usize = 256;

/// The longest file, that of 256 streams and 8 gaps.
const LARGEST: usize = 7_284;

/// Noise that takes about 1.5 % of the channel, where the longest message costs 35 or 39 ticks, and a quarter of that.
const GAPS: [u32; 8] = [20_011, 20_023, 20_029, 20_047, 20_051, 20_063, 20_071, 20_089];
const LONG_GAPS: [u32; 8] = [80_021, 80_039, 80_051, 80_071, 80_077, 80_107, 80_111, 80_141];

const ROUNDS: u32 = 60;

/// Where a call takes milliseconds.
const FEWER_ROUNDS: u32 = 12;

/// How long a round of one side should take: long beside the clock's own step, short enough to go through undisturbed.
const ROUND: Duration = Duration::from_millis(2);

fn stream(row: u32, period: u32, jitter: u32, payload: u32) -> Stream {
    let (label, priority) = (Label(0xa_0000 + row), Priority(row));
    Stream { label, priority, period, jitter, payload, deadline: period, acknowledgement: 0 }
}

/// So many streams, whose periods lie apart by up to a factor of 16, with a load of so many in 10,000.
fn full(count: u32, timing: Timing, load: u64, gaps: &[u32]) -> Plan {
    let cost = |sent: u32| plain::slot(&timing).unwrap_or(plain::setup(&timing) + u64::from(sent));
    let weight = |row: u32| u64::from(16 - 16 * row / count);
    let all: u64 = (0..count).map(weight).sum();
    // Rows stand in no order of priority, as on the desk. No count here is a multiple of 37, so that each stands there once.
    let streams = (0..count).map(|k| {
        let row = k * 37 % count;
        let (payload, acknowledgement) = (5, row % 7);
        let period = cost(payload + acknowledgement) * 10_000 * all / (load * weight(row));
        Stream { acknowledgement, ..stream(row, period as u32, 3 * row, payload) }
    });
    Plan { timing, streams: streams.collect(), gaps: gaps.to_vec() }
}

fn single(period: u32, jitter: u32) -> Plan {
    Plan { timing: BASE, streams: vec![stream(1, period, jitter, 5)], gaps: vec![] }
}

/// A light stream above a heavy one with much jitter.
fn pair() -> Plan {
    Plan { timing: BASE, streams: vec![stream(0, 2_500, 0, 5), stream(1, 26, 29_600, 5)], gaps: vec![] }
}

/// 63 streams that hardly ever send, above one that fills the channel and has jitter.
fn crowded() -> Plan {
    let mut streams: Vec<Stream> = (0..63).map(|row| stream(row, 4_000_000_000, 0, 5)).collect();
    streams.push(stream(63, 65_559, 65_559, 65_535));
    Plan { timing: BASE_6, streams, gaps: vec![] }
}

fn longest_busy_period(plan: &Plan) -> Option<u64> {
    plain::Analysis::new(plan).levels().filter_map(|level| level.busy_period()).max()
}

/// Of the stream whose search takes most.
fn most_evaluations(plan: &Plan) -> u64 {
    plain::Analysis::new(plan).levels().map(|level| level.search().evaluations).max().expect("a plan has streams")
}

fn file(plan: &Plan) -> Vec<u8> {
    let mut file = vec![0; LARGEST];
    let length = plain::write(plan, &mut file).expect("a plan of the benchmark is right");
    file.truncate(length);
    file
}

/// Nanoseconds a call, for so many calls.
fn time(calls: u32, run: &mut dyn FnMut()) -> f64 {
    let start = Instant::now();
    for _ in 0..calls {
        run();
    }
    start.elapsed().as_secs_f64() * 1e9 / f64::from(calls)
}

fn calls_for(run: &mut dyn FnMut()) -> u32 {
    let mut calls = 1;
    while time(calls, run) * f64::from(calls) < ROUND.as_nanos() as f64 {
        calls *= 2;
    }
    calls
}

fn thousands(nanoseconds: f64) -> String {
    if nanoseconds < 100.0 {
        return format!("{nanoseconds:.1}");
    }
    let digits = format!("{nanoseconds:.0}");
    let groups: Vec<_> = digits.as_bytes().rchunks(3).rev().map(String::from_utf8_lossy).collect();
    groups.join(",")
}

/// A row of the table, of what both take.
fn show(name: &str, [proved, plain]: [f64; 2]) {
    println!("| {name} | {} | {} | {:.2} |", thousands(proved), thousands(plain), proved / plain);
}

/// Hands back what both take, in nanoseconds a call.
fn row(name: &str, rounds: u32, proved: &mut dyn FnMut(), plain: &mut dyn FnMut()) -> [f64; 2] {
    let calls = calls_for(proved).min(calls_for(plain));
    let (mut best_proved, mut best_plain) = (f64::MAX, f64::MAX);
    for _ in 0..rounds {
        best_proved = best_proved.min(time(calls, proved));
        best_plain = best_plain.min(time(calls, plain));
    }
    show(name, [best_proved, best_plain]);
    [best_proved, best_plain]
}

fn answers_row(name: &str, rounds: u32, plan: &Plan) -> [f64; 2] {
    let file = file(plan);
    let (mut proved, mut ours) = ([0; ROW * MOST_STREAMS], [0; ROW * MOST_STREAMS]);
    assert_eq!(livnakesh::answer_words(&file, &mut proved), plain::answers(&file, &mut ours));
    assert_eq!(proved, ours);
    let file = &file[..];
    row(name, rounds, &mut || _ = black_box(livnakesh::answer_words(black_box(file), black_box(&mut proved))), &mut || {
        _ = black_box(plain::answers(black_box(file), black_box(&mut ours)))
    })
}

/// Of a plan in which every stream has a bound, so that no chain ends early.
fn bounded_row(name: &str, rounds: u32, plan: &Plan) {
    assert!(plain::Analysis::new(plan).levels().all(|level| level.worst().is_some()));
    answers_row(name, rounds, plan);
}

/// More streams than an older file has, from light to nearly full.
fn rows_of(count: u32) {
    let light = full(count, BASE_8, 100, &[]);
    bounded_row(&format!("{count} streams, 1 % load"), ROUNDS, &light);
    // Nearly full, there is less left for noise.
    let loads = [(50, ROUNDS, GAPS), (90, ROUNDS, GAPS), (99, FEWER_ROUNDS, LONG_GAPS)];
    for (percent, rounds, _) in loads {
        let plan = full(count, BASE_8, 100 * percent, &[]);
        bounded_row(&format!("{count} streams, {percent} % load"), rounds, &plan);
    }
    for (percent, rounds, gaps) in loads {
        let plan = full(count, BASE_8, 100 * percent, &gaps);
        bounded_row(&format!("{count} streams, {percent} % load, 8 noise sources"), rounds, &plan);
    }
    for (percent, rounds, _) in loads {
        let plan = full(count, SLOTS_8, 100 * percent, &[]);
        bounded_row(&format!("{count} streams in slots, {percent} % load"), rounds, &plan);
    }
}

fn rewrite_row(name: &str, file: &[u8]) {
    let (mut proved, mut ours) = ([0; LARGEST], [0; LARGEST]);
    assert_eq!(livnakesh::rewrite(file, &mut proved), plain::rewrite(file, &mut ours));
    assert_eq!(proved, ours);
    row(name, ROUNDS, &mut || _ = black_box(livnakesh::rewrite(black_box(file), black_box(&mut proved))), &mut || {
        _ = black_box(plain::rewrite(black_box(file), black_box(&mut ours)))
    });
}

fn refuse_row(name: &str, plan: &Plan) {
    let mut file = file(plan);
    let last_gap = file.len() - 4;
    file[last_gap..].fill(0);
    rewrite_row(name, &file);
}

/// A plan, and the same in another order of rows and gaps.
fn lighter_row(name: &str, plan: &Plan) {
    let mut turned = plan.clone();
    turned.streams.reverse();
    turned.gaps.reverse();
    let (old, new) = (&file(plan)[..], &file(&turned)[..]);
    assert_eq!(livnakesh::lighter(old, new), livnakesh::Compared::Lighter);
    assert_eq!(plain::lighter(old, new), livnakesh::Compared::Lighter);
    row(name, ROUNDS, &mut || _ = black_box(livnakesh::lighter(black_box(old), black_box(new))), &mut || {
        _ = black_box(plain::lighter(black_box(old), black_box(new)))
    });
}

fn parting_row(name: &str) {
    row(
        name,
        ROUNDS,
        &mut || _ = black_box(livnakesh::parting(black_box(20), black_box(Priority(0x5_1234)), black_box(Priority(0x5_1634)))),
        &mut || _ = black_box(plain::parting(black_box(20), black_box(Priority(0x5_1234)), black_box(Priority(0x5_1634)))),
    );
}

/// From a start to the winner, a call for the start and one for each bit.
fn proved_tournament(bits: u32, priorities: &[Priority], marks: &mut [u8]) -> Outcome {
    let mut state = livnakesh::start(bits, priorities, marks);
    while let Outcome { answer: Ok(()), phase: Phase::AtBit(_) } = state {
        state = livnakesh::step(bits, state.phase, priorities, marks);
    }
    state
}

fn plain_tournament(bits: u32, priorities: &[Priority]) -> Result<Tournament, livnakesh::Refused> {
    let mut state = Tournament::start(bits, priorities)?;
    while let Phase::AtBit(_) = state.phase {
        state = state.step()?;
    }
    Ok(state)
}

fn tournament_row(name: &str) {
    // An odd factor keeps the rows different, and parts them at bits all over the 32.
    let priorities: Vec<Priority> = (1..=128_u32).map(|k| Priority(k.wrapping_mul(0x9E37_79B1))).collect();
    let winner = (0..128).min_by_key(|&row| priorities[row as usize]).map(Row).expect("contenders");
    let mut marks = [0; 128];
    let proved = proved_tournament(32, &priorities, &mut marks);
    assert_eq!(proved, Outcome { answer: Ok(()), phase: Phase::Finished(winner) });
    let ours = plain_tournament(32, &priorities).expect("different priorities that fit");
    assert_eq!((ours.phase, ours.marks.map(u8::from)), (proved.phase, marks));
    let priorities = &priorities[..];
    row(
        name,
        ROUNDS,
        &mut || _ = black_box(proved_tournament(black_box(32), black_box(priorities), black_box(&mut marks))),
        &mut || _ = black_box(plain_tournament(black_box(32), black_box(priorities))),
    );
}

fn main() {
    println!("| | proved, ns a call | plain, ns a call | proved / plain |");
    println!("|---|---|---|---|");
    answers_row("one stream", ROUNDS, &single(100, 0));
    for count in [2, 4, 8, 16, 32] {
        bounded_row(&format!("{count} streams, 50 % load"), ROUNDS, &full(count, BASE_6, 5_000, &[]));
    }
    bounded_row("64 streams, 1 % load", ROUNDS, &full(64, BASE_6, 100, &[]));
    answers_row("64 streams, 50 % load", ROUNDS, &full(64, BASE_6, 5_000, &[]));
    answers_row("64 streams, 90 % load", ROUNDS, &full(64, BASE_6, 9_000, &[]));
    answers_row("64 streams, 99 % load", ROUNDS, &full(64, BASE_6, 9_900, &[]));
    answers_row("64 streams, 90 % load, 8 noise sources", ROUNDS, &full(64, BASE_6, 9_000, &GAPS));
    bounded_row("64 streams in slots, 90 % load", ROUNDS, &full(64, SLOTS_6, 9_000, &[]));
    rows_of(190);
    rows_of(256);
    let long = single(26, 40_000);
    assert_eq!(longest_busy_period(&long), Some(1_000_000));
    answers_row("one stream, L 1,000,000, 40,000 instances", ROUNDS, &long);
    let pair = pair();
    assert_eq!(longest_busy_period(&pair), Some(1_000_000));
    answers_row("two streams, L 1,000,000, 39,600 instances", ROUNDS, &pair);
    let p5 = single(25, 25);
    assert_eq!(most_evaluations(&p5), 171_798_691);
    let both = answers_row("P5: 171,798,691 evaluations, none", 2, &p5);
    show("P5, for each evaluation", both.map(|nanoseconds| nanoseconds / 171_798_691.0));
    let crowded = crowded();
    assert_eq!(most_evaluations(&crowded), 32_757);
    answers_row("64 streams, the last of 32,757 evaluations, none", ROUNDS, &crowded);
    let noisy = [full(64, BASE_6, 9_000, &GAPS), full(256, BASE_8, 9_000, &GAPS)];
    for plan in &noisy {
        rewrite_row(&format!("read and write {} streams, 8 gaps", plan.streams.len()), &file(plan));
    }
    for plan in &noisy {
        refuse_row(&format!("refuse {} streams for their last gap", plan.streams.len()), plan);
    }
    for plan in &noisy {
        lighter_row(&format!("lighter, two plans of {} streams, 8 gaps", plan.streams.len()), plan);
    }
    parting_row("parting bit");
    tournament_row("tournament of 128 contenders, start and 32 steps");
}
