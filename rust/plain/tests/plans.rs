//! Document 01's plans to run, plans in slots, of many streams and with acknowledgements, with the figures that document 02 makes of
//! them, worked out by hand: through the proved library and the plain planner.

mod common;

use common::{
    editions_of, file_in, file_of, met, met_at, missed, missed_at, oldest, stream, terms, values_of, written_of, BASE, EDITIONS,
    LARGEST, LONGEST_SLOT, MOST_STREAMS,
};
use livnakesh::{Answer, Compared, Label, Outcome, Phase, Priority, Reason, Refused, Row, Searched, Stream};
use plain::{self, Analysis, Edition, Level, Plan, Tournament, ETG, LAG, NB, P, ROW};

/// 10.1, 10.10 and 11.2.
const LABELS: [u32; 3] = [0xa_0001, 0xa_000a, 0xb_0002];

#[rustfmt::skip]
const P1: [u8; 152] = [
    // contents: edition, entries, then kind, start and length of each
    1, 0, 0, 0,  3, 0, 0, 0,
    1, 0, 0, 0,  44, 0, 0, 0,  36, 0, 0, 0,
    2, 0, 0, 0,  80, 0, 0, 0,  72, 0, 0, 0,
    3, 0, 0, 0,  152, 0, 0, 0,  0, 0, 0, 0,
    // F 4, E 1, TFCS 1, SWX 2, H 1, G 1, ETG 2, LAG 1, NB 4
    4, 0, 0, 0,  1, 0, 0, 0,  1, 0, 0, 0,  2, 0, 0, 0,  1, 0, 0, 0,  1, 0, 0, 0,  2, 0, 0, 0,  1, 0, 0, 0,  4, 0, 0, 0,
    // label, priority, T, J, C, D
    1, 0, 10, 0,   1, 0, 0, 0,  100, 0, 0, 0,  0, 0, 0, 0,   5, 0, 0, 0,  60, 0, 0, 0,
    10, 0, 10, 0,  2, 0, 0, 0,  150, 0, 0, 0,  10, 0, 0, 0,  7, 0, 0, 0,  120, 0, 0, 0,
    2, 0, 11, 0,   3, 0, 0, 0,  144, 1, 0, 0,  0, 0, 0, 0,   2, 0, 0, 0,  200, 0, 0, 0,
];

/// P1 with a pulse every 30 ticks.
#[rustfmt::skip]
const SLOTS: [u8; 156] = [
    2, 0, 0, 0,  3, 0, 0, 0,
    1, 0, 0, 0,  44, 0, 0, 0,  40, 0, 0, 0,
    2, 0, 0, 0,  84, 0, 0, 0,  72, 0, 0, 0,
    3, 0, 0, 0,  156, 0, 0, 0,  0, 0, 0, 0,
    // as above, and P 30
    4, 0, 0, 0,  1, 0, 0, 0,  1, 0, 0, 0,  2, 0, 0, 0,  1, 0, 0, 0,  1, 0, 0, 0,  2, 0, 0, 0,  1, 0, 0, 0,  4, 0, 0, 0,
    30, 0, 0, 0,
    1, 0, 10, 0,   1, 0, 0, 0,  100, 0, 0, 0,  0, 0, 0, 0,   5, 0, 0, 0,  60, 0, 0, 0,
    10, 0, 10, 0,  2, 0, 0, 0,  150, 0, 0, 0,  10, 0, 0, 0,  7, 0, 0, 0,  120, 0, 0, 0,
    2, 0, 11, 0,   3, 0, 0, 0,  144, 1, 0, 0,  0, 0, 0, 0,   2, 0, 0, 0,  200, 0, 0, 0,
];

/// P1 with acknowledgements of 3, 2 and 0, as it is written.
#[rustfmt::skip]
const ACKNOWLEDGED: [u8; 168] = [
    3, 0, 0, 0,  3, 0, 0, 0,
    1, 0, 0, 0,  44, 0, 0, 0,  40, 0, 0, 0,
    2, 0, 0, 0,  84, 0, 0, 0,  84, 0, 0, 0,
    3, 0, 0, 0,  168, 0, 0, 0,  0, 0, 0, 0,
    // as in P1, but ETG 3 and LAG 0, and P 0
    4, 0, 0, 0,  1, 0, 0, 0,  1, 0, 0, 0,  2, 0, 0, 0,  1, 0, 0, 0,  1, 0, 0, 0,  3, 0, 0, 0,  0, 0, 0, 0,  4, 0, 0, 0,
    0, 0, 0, 0,
    // label, priority, T, J, C, D, K
    1, 0, 10, 0,   1, 0, 0, 0,  100, 0, 0, 0,  0, 0, 0, 0,   5, 0, 0, 0,  60, 0, 0, 0,   3, 0, 0, 0,
    10, 0, 10, 0,  2, 0, 0, 0,  150, 0, 0, 0,  10, 0, 0, 0,  7, 0, 0, 0,  120, 0, 0, 0,  2, 0, 0, 0,
    2, 0, 11, 0,   3, 0, 0, 0,  144, 1, 0, 0,  0, 0, 0, 0,   2, 0, 0, 0,  200, 0, 0, 0,  0, 0, 0, 0,
];

/// P1 as it is written.
fn p1_written() -> [u8; 168] {
    let mut file = ACKNOWLEDGED;
    [file[108], file[136]] = [0, 0];
    file
}

fn p1() -> Plan {
    let streams =
        vec![stream(LABELS[0], 1, 100, 0, 5, 60), stream(LABELS[1], 2, 150, 10, 7, 120), stream(LABELS[2], 3, 400, 0, 2, 200)];
    Plan { timing: BASE, streams, gaps: vec![] }
}

fn single(period: u32, jitter: u32) -> Plan {
    Plan { timing: BASE, streams: vec![stream(LABELS[0], 1, period, jitter, 5, 60)], gaps: vec![] }
}

/// With a pulse every so many ticks.
fn in_slots(plan: Plan, slot: u32) -> Plan {
    let mut timing = plan.timing;
    timing[P] = slot;
    Plan { timing, ..plan }
}

/// With this ETG and this LAG.
fn entered(plan: &Plan, etg: u32, lag: u32) -> Plan {
    let mut plan = plan.clone();
    [plan.timing[ETG], plan.timing[LAG]] = [etg, lag];
    plan
}

/// With these acknowledgements of its first streams.
fn acknowledged(mut plan: Plan, acknowledgements: &[u32]) -> Plan {
    for (s, &k) in plan.streams.iter_mut().zip(acknowledgements) {
        s.acknowledgement = k;
    }
    plan
}

fn p7() -> Plan {
    let streams = vec![stream(1, 1, 25, 0, 10, 25), stream(2, 2, 35, 0, 10, 35), stream(3, 3, 35, 0, 10, 35)];
    Plan { timing: [0, 0, 0, 0, 0, 0, 0, 0, 4, 0], streams, gaps: vec![] }
}

/// With other periods of its second and its last stream.
fn p7_with(second: u32, last: u32) -> Plan {
    let mut plan = p7();
    plan.streams[1].period = second;
    plan.streams[2].period = last;
    plan
}

/// A row's four words.
fn as_words(Searched { answer, evaluations }: Searched) -> [u64; ROW] {
    match answer {
        Answer::Met { bound, instance } => [0, bound, instance, evaluations],
        Answer::Missed { bound, instance } => [1, bound, instance, evaluations],
        Answer::None => [2, 0, 0, evaluations],
    }
}

fn answers(file: &[u8]) -> Result<Vec<Searched>, Refused> {
    let mut words = [77; ROW * MOST_STREAMS];
    let proved = livnakesh::answer_words(file, &mut words);
    let mut plain_words = [77; ROW * MOST_STREAMS];
    assert_eq!(plain::answers(file, &mut plain_words), proved);
    assert_eq!(plain_words, words);
    let n = plain::read(file).map_or(0, |plan| plan.streams.len());
    assert!(words[ROW * n..].iter().all(|&word| word == 77));
    let rows = livnakesh::answers(file);
    assert_eq!(rows.clone().map(|rows| rows.len()), proved.map(|()| n), "rows that exist, and no more");
    assert_eq!(
        rows.clone().map(|rows| rows.into_iter().flat_map(as_words).collect()),
        proved.map(|()| words[..ROW * n].to_vec())
    );
    rows
}

fn rewritten(file: &[u8]) -> Result<Vec<u8>, Refused> {
    let mut buffer = [77; LARGEST + 9];
    let proved = livnakesh::rewrite(file, &mut buffer);
    let mut plain_buffer = [77; LARGEST + 9];
    assert_eq!(plain::rewrite(file, &mut plain_buffer), proved);
    assert_eq!(plain_buffer, buffer);
    proved.map(|length| buffer[..length].to_vec())
}

/// The file that the library writes of a plan's values.
fn written(plan: &Plan) -> Result<Vec<u8>, Refused> {
    let mut buffer = [77; LARGEST + 9];
    let length = livnakesh::write(plan.streams.len(), plan.gaps.len(), &values_of(plan), &mut buffer)?;
    assert!(buffer[length..].iter().all(|&byte| byte == 77));
    Ok(buffer[..length].to_vec())
}

/// What the screen gets for a plan's values.
fn screened(plan: &Plan) -> Result<Vec<Searched>, Refused> {
    let mut words = [77; ROW * MOST_STREAMS];
    livnakesh::screen_words(&plan.streams, &plan.timing, &plan.gaps, &mut words)?;
    let n = plan.streams.len();
    assert!(words[ROW * n..].iter().all(|&word| word == 77));
    let rows = livnakesh::screen(&plan.streams, &plan.timing, &plan.gaps)?;
    assert_eq!(rows.iter().copied().flat_map(as_words).collect::<Vec<u64>>(), words[..ROW * n]);
    Ok(rows)
}

/// By the plan's values and by its file in each of its editions.
fn searched(plan: &Plan) -> Vec<Searched> {
    let rows = screened(plan);
    assert_eq!(written(plan), Ok(written_of(plan)));
    for edition in editions_of(plan) {
        let file = file_in(edition, plan);
        assert_eq!(answers(&file), rows);
        assert_eq!(rewritten(&file), Ok(written_of(plan)));
    }
    rows.expect("a plan that is not refused")
}

fn gives(plan: &Plan, wanted: &[Answer]) {
    assert_eq!(only_answers(searched(plan)), wanted);
}

fn only_answers(rows: Vec<Searched>) -> Vec<Answer> {
    rows.into_iter().map(|row| row.answer).collect()
}

/// The evaluations of each row, and the most that they may be.
fn takes(plan: &Plan, wanted: &[(u64, u64)]) {
    let rows = searched(plan).into_iter().enumerate();
    let limit = |row| at_level(plan, row, |level| level.limit(level.busy_period()));
    assert_eq!(rows.map(|(row, searched)| (searched.evaluations, limit(row))).collect::<Vec<_>>(), wanted);
}

fn values_are_refused(plan: &Plan, number: u64, place: u64) {
    is_refused(&file_of(plan), number, place);
    assert_eq!(written(plan), Err(Refused { number, place }));
    assert_eq!(screened(plan), Err(Refused { number, place }));
}

fn is_refused(file: &[u8], number: u64, place: u64) {
    let wanted = Refused { number, place };
    assert_eq!(answers(file), Err(wanted));
    assert_eq!(rewritten(file), Err(wanted));
    for other in [&P1[..], &SLOTS[..], &ACKNOWLEDGED[..]] {
        for lighter in [livnakesh::lighter, plain::lighter] {
            assert_eq!(lighter(file, other), Compared::FirstRefused(wanted));
            assert_eq!(lighter(other, file), Compared::SecondRefused(wanted));
        }
    }
}

fn compared(old: &[u8], new: &[u8], wanted: Compared) {
    assert_eq!(livnakesh::lighter(old, new), wanted);
    assert_eq!(plain::lighter(old, new), wanted);
}

fn at_level<T>(plan: &Plan, row: usize, say: impl Fn(&Level) -> T) -> T {
    let analysis = Analysis::new(plan);
    let level = analysis.levels().find(|level| level.row == row).expect("the plan has the row");
    say(&level)
}

#[test]
fn p1_is_its_152_bytes_and_all_is_met() {
    assert_eq!(file_in(Edition::One, &p1()), P1);
    assert_eq!(include_bytes!("../../../examples/p1.plan"), &P1);
    gives(&p1(), &[met(43), met(75), met(74)]);
    assert_eq!((plain::before(&BASE), plain::overhead(&BASE)), (8, 12));
    assert_eq!([0, 1, 2].map(|row| at_level(&p1(), row, |level| level.own.cost)), [25, 27, 22]);
}

#[test]
fn p2_has_one_noise_source() {
    let plan = Plan { gaps: vec![1_000], ..p1() };
    gives(&plan, &[missed(68), met(102), met(101)]);
}

#[test]
fn p3_takes_no_busy_period_of_0() {
    gives(&single(25, 0), &[met(25)]);
    assert_eq!(at_level(&single(25, 0), 0, |level| level.busy_period()), Some(25));
}

#[test]
fn p4_has_none() {
    gives(&single(24, 0), &[Answer::None]);
}

/// From 1 to 50, then 25 more at every evaluation, to 4,294,967,300: one evaluation fewer than there may be.
#[test]
fn p5_has_none_for_its_jitter() {
    assert_eq!(searched(&single(25, 25)), [Searched { answer: Answer::None, evaluations: 171_798_691 }]);
    assert_eq!(at_level(&single(25, 25), 0, |level| level.limit(None)), 171_798_692);
}

/// C'' was 23 with a pulse fewer, and is now above these periods.
#[test]
fn p3_to_p5_with_the_periods_of_document_01_have_none() {
    for (period, jitter) in [(23, 0), (22, 0), (23, 23)] {
        gives(&single(period, jitter), &[Answer::None]);
    }
}

#[test]
fn p6_has_six_instances() {
    gives(&single(30, 30), &[met(55)]);
    let busy_period = |level: &Level| level.busy_period().map(|length| (length, level.instances(length)));
    assert_eq!(at_level(&single(30, 30), 0, busy_period), Some((150, 6)));
}

/// Alone on the channel each instance is earlier than the one before it, however much jitter there is.
#[test]
fn a_stream_alone_is_latest_at_its_first_instance() {
    gives(&single(30, 90), &[missed(115)]);
    assert_eq!(at_level(&single(30, 90), 0, terms).map(|terms| terms[..4].to_vec()), Some(vec![115, 110, 105, 100]));
}

#[test]
fn p7_is_latest_at_its_second_instance() {
    gives(&p7(), &[met(19), met(29), met_at(35, 1)]);
    assert_eq!(at_level(&p7(), 2, |level| level.busy_period()), Some(70));
    assert_eq!(at_level(&p7(), 2, |level| (level.wait(0, 0), level.wait(1, 0))), (20, 60));
}

/// The last stream's two instances wait 20 and 60, so that the terms are 30 and 70 - T: with a T of 40 they are equally late.
/// With 30 for the second stream the waits are 20, 70 and 110, and the terms 30, 40 and 40.
#[test]
fn of_equally_late_instances_the_first_is_told() {
    gives(&p7_with(35, 39), &[met(19), met(29), met_at(31, 1)]);
    gives(&p7_with(35, 40), &[met(19), met(29), met(30)]);
    gives(&p7_with(35, 41), &[met(19), met(29), met(30)]);
    assert_eq!(at_level(&p7_with(35, 40), 2, terms), Some(vec![30, 30]));
    gives(&p7_with(30, 40), &[met(19), met(29), missed_at(40, 1)]);
    assert_eq!(at_level(&p7_with(30, 40), 2, terms), Some(vec![30, 40, 40]));
}

/// The waits are 20, 70, 110 and 140: less 39 for each period, the third instance is the latest.
#[test]
fn an_instance_after_the_second_is_the_latest() {
    gives(&p7_with(30, 39), &[met(19), met(29), missed_at(42, 2)]);
    assert_eq!(at_level(&p7_with(30, 39), 2, terms), Some(vec![30, 41, 42, 33]));
}

#[test]
fn p8_and_p9_repeat_a_priority() {
    let mut plan = p1();
    plan.streams[1].priority = Priority(1);
    values_are_refused(&plan, 4, 1);
    plan.streams[1].label = plan.streams[0].label;
    values_are_refused(&plan, 4, 1);
}

#[test]
fn p10_is_too_short() {
    is_refused(&P1[..43], 1, 0);
}

#[test]
fn p11_has_a_payload_of_0() {
    let mut file = P1;
    file[96] = 0;
    is_refused(&file, 3, 96);
    let mut plan = p1();
    plan.streams[0].payload = 0;
    values_are_refused(&plan, 3, 100);
}

// ---- evaluations ----

/// 10.1 goes from 1 to 43 and stays there, 10.10 to 65, 11.2 to 74. The least costs are 25, 25 and 22. With noise 11.2 goes by 101 to 126.
#[test]
fn evaluations_of_p1_and_p2() {
    takes(&p1(), &[(2, 2), (2, 3), (2, 4)]);
    takes(&Plan { gaps: vec![1_000], ..p1() }, &[(2, 3), (2, 4), (3, 6)]);
}

/// f(1) is 25, and so is f(25).
#[test]
fn p3_takes_2_evaluations() {
    takes(&single(25, 0), &[(2, 2)]);
}

/// 50, 75, 100, 125, 150, and 150 again.
#[test]
fn p6_takes_6_evaluations() {
    takes(&single(30, 30), &[(6, 7)]);
}

/// 19 and 19; 29, 39, 49 and 49; 30, 40, 60, 70 and 70.
#[test]
fn evaluations_of_p7() {
    takes(&p7(), &[(2, 2), (4, 5), (5, 8)]);
}

/// 59 and 59; 89 and 89; 119, 149, 179 and 179. Each message counts 30, in the limit too.
#[test]
fn evaluations_in_slots() {
    takes(&in_slots(p1(), 30), &[(2, 2), (2, 3), (4, 6)]);
}

/// One evaluation is the fewest: f(1) is 1, or beyond the horizon at once.
#[test]
fn a_single_evaluation() {
    let timing = [0, 0, 0, 0, 0, 0, 0, 0, 1, 0];
    let plan = |jitter| Plan { timing, streams: vec![stream(1, 0, 1, jitter, 1, 1)], gaps: vec![] };
    assert_eq!(searched(&plan(0)), [Searched { answer: met(1), evaluations: 1 }]);
    takes(&plan(0), &[(1, 2)]);
    assert_eq!(searched(&plan(u32::MAX)), [Searched { answer: Answer::None, evaluations: 1 }]);
    takes(&in_slots(plan(0), 1), &[(1, 2)]);
    takes(&in_slots(plan(u32::MAX), 1), &[(1, 4_294_967_296)]);
}

/// A stream with a period of 65,555, which is its C'', and no jitter, above one with a message of `payload`. Of the horizon 65,517 whole
/// costs leave 360 ticks: up to a B of 360 the chain's value 65,517 is within it, and one more evaluation is made.
#[test]
fn a_stream_that_fills_the_channel() {
    let plan = |payload| {
        let streams = vec![stream(1, 1, 65_555, 0, 65_535, 1), stream(2, 2, u32::MAX, 0, payload, 1)];
        Plan { timing: BASE, streams, gaps: vec![] }
    };
    for (payload, evaluations) in [(1, 65_518), (348, 65_518), (349, 65_518), (350, 65_517)] {
        let rows = searched(&plan(payload));
        assert_eq!(rows[0], Searched { answer: Answer::None, evaluations }, "a payload of {payload}");
        assert_eq!(at_level(&plan(payload), 0, |level| level.limit(None)), 65_518);
    }
}

/// A call that answers a plan in lent words.
type Answering<'a> = &'a dyn Fn(&mut [u64]) -> Result<(), Refused>;

/// 6 exactly when fewer than four words a row are lent. All are then as found, and otherwise those after the rows.
#[test]
fn four_words_a_row() {
    for plan in [single(25, 0), p1(), in_slots(p1(), 30), acknowledged(p1(), &[3, 2, 0]), one_each(64), one_each(256)] {
        let (n, file) = (plan.streams.len(), file_of(&plan));
        let mut rows = vec![77; 4 * n];
        assert_eq!(plain::screen(&plan, &mut rows), Ok(()));
        let calls: [Answering; 4] = [
            &|words| livnakesh::answer_words(&file, words),
            &|words| livnakesh::screen_words(&plan.streams, &plan.timing, &plan.gaps, words),
            &|words| plain::answers(&file, words),
            &|words| plain::screen(&plan, words),
        ];
        let lengths = if n < 4 { Vec::from_iter(0..=4 * n + 5) } else { vec![0, 3 * n, 4 * n - 1, 4 * n, 4 * n + 1] };
        for (length, call) in lengths.into_iter().flat_map(|length| calls.map(|call| (length, call))) {
            let mut words = vec![77; length];
            let said = call(&mut words);
            let (wanted, kept) = if length < 4 * n { (Err(Refused { number: 6, place: 0 }), 0) } else { (Ok(()), 4 * n) };
            assert_eq!(said, wanted, "{n} rows, {length} words");
            assert_eq!(words[..kept], rows[..kept], "{n} rows, {length} words");
            assert!(words[kept..].iter().all(|&word| word == 77), "{n} rows, {length} words: {words:?}");
        }
    }
}

// ---- slots ----

/// C'' is 18, 20 and 15, and P - 1 = 29 ticks are waited for the pulse by all, the least urgent too: 29 + 18, 10 + 29 + 30 + 20,
/// 29 + 60 + 15.
#[test]
fn p1_in_slots() {
    let plan = in_slots(p1(), 30);
    assert_eq!(file_in(Edition::Two, &plan), SLOTS);
    assert_eq!(include_bytes!("../../../examples/slots.plan"), &SLOTS);
    gives(&plan, &[met(47), met(89), met(104)]);
    let level = |row: usize| at_level(&plan, row, |level| (level.own.last, level.own.cost, level.wait(0, 0)));
    assert_eq!([0, 1, 2].map(level), [(18, 30, 29), (20, 30, 59), (15, 30, 89)]);
}

#[test]
fn p2_in_slots() {
    let plan = Plan { gaps: vec![1_000], ..in_slots(p1(), 40) };
    gives(&plan, &[missed(97), missed(189), missed(294)]);
}

/// The urgent stream's second message is released a tick after the pulse at 59, and then at that pulse. By V both would join.
#[test]
fn a_release_after_the_pulse_is_too_late() {
    let pair = |period: u32| {
        let streams = vec![stream(1, 1, period, 0, 5, 1_000), stream(2, 2, 1_000, 0, 5, 1_000)];
        in_slots(Plan { timing: BASE, streams, gaps: vec![] }, 30)
    };
    gives(&pair(60), &[met(47), met(77)]);
    gives(&pair(59), &[met(47), met(107)]);
}

/// A hit anywhere in the own slot costs a slot: w = 59, and the slot ends at 89.
#[test]
fn a_hit_may_come_until_the_slot_ends() {
    let hit = |gap: u32| in_slots(Plan { gaps: vec![gap], ..single(1_000, 0) }, 30);
    gives(&hit(89), &[missed(77)]);
    gives(&hit(88), &[missed(107)]);
}

/// The second instance waits for the first's slot and two more urgent ones: 39 + 8 - 18 = 29, where the first has 19 + 8.
#[test]
fn a_later_instance_in_slots() {
    let streams = vec![stream(1, 1, 25, 0, 8, 25), stream(2, 2, 18, 0, 8, 28)];
    let plan = in_slots(Plan { streams, ..p7() }, 10);
    gives(&plan, &[met(17), missed_at(29, 1)]);
    assert_eq!(at_level(&plan, 1, |level| level.busy_period()), Some(249));
    assert_eq!(at_level(&plan, 1, |level| (level.wait(0, 0), level.wait(1, 0))), (19, 39));
}

/// Two streams take turns: an instance of the second waits two slots, 20 ticks, more than the one before it, as long as the first
/// stream, 4 ticks slower, has not fallen back by a slot: for q = 0 to 2. With a T of 20 these are equally late, with 19 each is
/// later than the one before it.
#[test]
fn equally_late_instances_in_slots() {
    let plan = |period: u32| {
        let streams = vec![stream(1, 1, 24, 0, 8, 25), stream(2, 2, period, 0, 8, 28)];
        in_slots(Plan { streams, ..p7() }, 10)
    };
    gives(&plan(20), &[met(17), met(27)]);
    assert_eq!(at_level(&plan(20), 1, terms), Some(vec![27, 27, 27, 17, 17, 17]));
    gives(&plan(19), &[met(17), missed_at(29, 2)]);
    assert_eq!(at_level(&plan(19), 1, terms).map(|terms| terms[..4].to_vec()), Some(vec![27, 28, 29, 20]));
}

/// As above, with slots of 1,000: w(q) is 1,999 + 2,000 q as long as 2 q is below a slot, and the term is 2,007 + q.
#[test]
fn the_500th_instance_is_the_latest() {
    let streams = vec![stream(1, 1, 2_002, 0, 8, 2_000), stream(2, 2, 1_999, 0, 8, 2_506)];
    let plan = in_slots(Plan { streams, ..p7() }, 1_000);
    gives(&plan, &[met(1_007), met_at(2_506, 499)]);
}

/// With a slot of one tick nothing is waited for at all, and one stream may fill the channel.
#[test]
fn the_shortest_slot() {
    let timing = [0, 0, 0, 0, 0, 0, 0, 0, 1, 1];
    gives(&Plan { timing, streams: vec![stream(1, 0, 1, 0, 1, 1)], gaps: vec![] }, &[met(1)]);
}

#[test]
fn a_slot_as_long_as_the_longest_message() {
    gives(&in_slots(p1(), 20), &[met(37), met(69), met(74)]);
    values_are_refused(&in_slots(p1(), 19), 10, 1);
    values_are_refused(&in_slots(p1(), 18), 10, 1);
    values_are_refused(&in_slots(p1(), 17), 10, 0);
    values_are_refused(&in_slots(p1(), 1), 10, 0);
}

/// In edition 3 it may also be 0, as it is wherever `gives` tries P1.
#[test]
fn p_is_1_to_5_000_000() {
    gives(&in_slots(p1(), LONGEST_SLOT), &[Answer::None; 3]);
    for slot in [LONGEST_SLOT + 1, u32::MAX] {
        values_are_refused(&in_slots(p1(), slot), 3, 80);
        is_refused(&file_in(Edition::Two, &in_slots(p1(), slot)), 3, 80);
    }
    is_refused(&file_in(Edition::Two, &p1()), 3, 80);
}

/// A file has the places of its own edition, and lent values have those of edition 3, with a master node and without.
#[test]
fn the_lowest_wrong_field() {
    let mut plan = Plan { gaps: vec![9, 0], ..p1() };
    is_refused(&file_in(Edition::One, &plan), 3, 80 + 72 + 4);
    is_refused(&file_in(Edition::Two, &in_slots(plan.clone(), 30)), 3, 84 + 72 + 4);
    values_are_refused(&plan, 3, 84 + 84 + 4);
    values_are_refused(&in_slots(plan.clone(), 30), 3, 84 + 84 + 4);
    plan.streams[1].payload = 0;
    is_refused(&file_in(Edition::One, &plan), 3, 80 + 24 + 16);
    is_refused(&file_in(Edition::Two, &in_slots(plan.clone(), 30)), 3, 84 + 24 + 16);
    values_are_refused(&plan, 3, 84 + 28 + 16);
    values_are_refused(&in_slots(plan.clone(), 30), 3, 84 + 28 + 16);
    values_are_refused(&in_slots(plan.clone(), LONGEST_SLOT + 1), 3, 80);
    is_refused(&file_in(Edition::Two, &plan), 3, 80);
    plan.timing[NB] = 33;
    values_are_refused(&in_slots(plan.clone(), LONGEST_SLOT + 1), 3, 76);
    is_refused(&file_in(Edition::Two, &plan), 3, 76);
}

/// With a byte and with a word too few lent, both of which stay.
fn comes_before_6(plan: &Plan, number: u64, place: u64) {
    let (mut bytes, mut words) = ([77; 167], [77; 3 * ROW - 1]);
    for refused in [
        livnakesh::write(3, 0, &values_of(plan), &mut bytes).map(|_| ()),
        livnakesh::rewrite(&file_of(plan), &mut bytes).map(|_| ()),
        livnakesh::answer_words(&file_of(plan), &mut words),
        livnakesh::screen_words(&plan.streams, &plan.timing, &plan.gaps, &mut words),
    ] {
        assert_eq!(refused, Err(Refused { number, place }));
    }
    assert_eq!((bytes, words), ([77; 167], [77; 3 * ROW - 1]));
}

/// 3, 11, 4, 5, 10 and then 6, whatever the size of the number.
#[test]
fn the_stated_order_decides() {
    let mut plan = in_slots(p1(), 15);
    comes_before_6(&plan, 10, 0);
    let too_great = entered(&plan, 65_535, 1);
    comes_before_6(&too_great, 11, 68);
    values_are_refused(&too_great, 11, 68);
    plan.streams[2].label = plan.streams[0].label;
    values_are_refused(&plan, 5, 2);
    values_are_refused(&entered(&plan, 65_535, 1), 11, 68);
    plan.streams[1].priority = plan.streams[0].priority;
    values_are_refused(&plan, 4, 1);
    plan = entered(&plan, 65_535, 1);
    values_are_refused(&plan, 11, 68);
    plan.streams[2].deadline = 0;
    values_are_refused(&plan, 3, 160);
    plan.timing[P] = LONGEST_SLOT + 1;
    values_are_refused(&plan, 3, 80);
    plan.timing[NB] = 33;
    values_are_refused(&plan, 3, 76);
    plan.timing[0] = 65_536;
    values_are_refused(&plan, 3, 44);
}

/// Without a master node C'' may be as great as it will.
#[test]
fn no_slot_is_too_short_without_a_master_node() {
    let plan = Plan { streams: vec![stream(1, 1, 1_000_000, 0, 65_535, 1_000_000)], ..p1() };
    gives(&plan, &[met(65_555)]);
    gives(&acknowledged(plan, &[65_535]), &[met(131_090)]);
}

#[test]
fn nine_timing_words_are_no_master_node() {
    let plan = in_slots(p1(), 30);
    let (mut nine, mut none) = ([77; 3 * ROW], [77; 3 * ROW]);
    assert_eq!(livnakesh::screen_words(&plan.streams, &plan.timing[..P], &[], &mut nine), Ok(()));
    assert_eq!(livnakesh::screen_words(&plan.streams, &p1().timing, &[], &mut none), Ok(()));
    let wanted = [0, 43, 0, 2, 0, 75, 0, 2, 0, 74, 0, 2];
    assert_eq!((nine, none), (wanted, wanted));
}

// ---- many streams ----

/// So many streams that hardly ever send, and 8 gaps. There is room for 512 priorities.
fn crowd(streams: usize) -> Plan {
    let mut timing = BASE;
    timing[NB] = 9;
    let streams = (0..streams as u32).map(|row| stream(row, row, 4_000_000, 0, 5, 4_000_000)).collect();
    Plan { timing, streams, gaps: vec![4_000_000; 8] }
}

/// It is answered, and written as it should be, by its file and by its values.
fn is_accepted(edition: Edition, plan: &Plan) {
    let file = file_in(edition, plan);
    assert_eq!(rewritten(&file), Ok(written_of(plan)));
    assert_eq!(written(plan), Ok(written_of(plan)));
    let rows = answers(&file);
    assert!(rows.as_ref().is_ok_and(|rows| rows.len() == plan.streams.len()));
    assert_eq!(screened(plan), rows);
}

/// The largest of each edition, and a few bytes more or less.
#[test]
fn the_largest_files() {
    let slots = |streams| in_slots(crowd(streams), 30);
    for (edition, plan, length) in
        [(Edition::One, crowd(64), 1_648), (Edition::Two, slots(64), 1_652), (Edition::Three, slots(256), 7_284)]
    {
        let file = file_in(edition, &plan);
        assert_eq!(file.len(), length);
        is_accepted(edition, &plan);
        is_refused(&file[..length - 1], 2, 0);
        for long in [length + 1, length + 4, 1_908, 1_909, 7_283, 7_284, 7_285, 7_288].into_iter().filter(|&long| long > length) {
            let mut longer = file.clone();
            longer.resize(long, 0);
            is_refused(&longer, if long > 7_284 { 1 } else { 2 }, 0);
        }
    }
}

/// No file of an older edition is as long as these.
#[test]
fn files_of_1_653_to_1_908_bytes() {
    for streams in 56..=64 {
        let plan = acknowledged(crowd(streams), &[7]);
        let length = file_of(&plan).len();
        assert!(length > 1_652 && length <= 1_908);
        is_accepted(Edition::Three, &plan);
    }
}

/// Their length alone was refused when 64 streams were the most. It is that of a plan, or they are refused as any other.
#[test]
fn files_of_1_909_to_7_284_bytes() {
    for streams in 65..=256 {
        let plan = crowd(streams);
        let length = file_of(&plan).len();
        assert!(length > 1_908 && length <= 7_284);
        is_accepted(Edition::Three, &plan);
    }
    for edition in EDITIONS {
        let mut file = file_in(edition, &in_slots(crowd(64), 30));
        for length in 1_909..=7_300 {
            file.resize(length, 0);
            is_refused(&file, if length > 7_284 { 1 } else { 2 }, 0);
        }
    }
}

/// 64 in an older file and 256 in edition 3, whatever the gaps and whether there is a master node. A file of edition 3 with a stream
/// and two gaps too many is too long before it has too many streams.
#[test]
fn one_stream_too_many() {
    for (slot, gaps) in [0, 30].into_iter().flat_map(|slot| (0..=8).map(move |gaps| (slot, gaps))) {
        let plan = |streams| Plan { gaps: vec![4_000_000; gaps], ..in_slots(crowd(streams), slot) };
        let old = if slot == 0 { Edition::One } else { Edition::Two };
        for streams in [1, 63, 64] {
            is_accepted(old, &plan(streams));
        }
        for streams in [65, 66, 127, 128, 255, 256, 257] {
            is_refused(&file_in(old, &plan(streams)), 2, 0);
        }
        for streams in [1, 64, 65, 128, 129, 255, 256] {
            is_accepted(Edition::Three, &plan(streams));
        }
        is_refused(&file_of(&plan(257)), if gaps < 2 { 2 } else { 1 }, 0);
        is_refused(&file_of(&plan(258)), 1, 0);
        for streams in [0, 257, 258, 512, 65_600] {
            assert_eq!(written(&plan(streams)), Err(Refused { number: 2, place: 0 }));
            assert_eq!(screened(&plan(streams)), Err(Refused { number: 2, place: 0 }));
            assert_eq!(plain::check(&plan(streams)), Err(Refused { number: 2, place: 0 }));
        }
        for edition in [old, Edition::Three] {
            is_refused(&file_in(edition, &plan(0)), 2, 0);
        }
    }
}

/// So many rows in no order of priority, with C' 25 and C'' 33, or 26 in slots; none sends twice.
fn one_each(streams: u32) -> Plan {
    let mut timing = BASE;
    timing[NB] = 8;
    let row = |k: u32| stream(LABELS[0] + k, k * 37 % streams, 4_000_000, 0, 5, 4_000_000);
    Plan { timing, streams: (0..streams).map(row).collect(), gaps: vec![] }
}

/// What each row of such a plan gets by its rank.
fn by_rank(plan: &Plan, bound: impl Fn(u64) -> u64) -> Vec<Answer> {
    plan.streams.iter().map(|s| met(bound(u64::from(s.priority.0)))).collect()
}

/// Each waits for all that are more urgent, 33 ticks or a slot of 34 for each; before that for the rest of a less urgent message, 24,
/// and the last for none, or for the pulse, 33. A hit costs one of them more.
#[test]
fn one_message_of_each_stream() {
    for streams in [1, 64, 65, 128, 129, 190, 255, 256] {
        let plan = one_each(streams);
        let last = u64::from(streams) - 1;
        let blocked = |k: u64| if k == last { 0 } else { 24 };
        gives(&plan, &by_rank(&plan, |k| blocked(k) + 33 * k + 33));
        let noisy = Plan { gaps: vec![4_000_000; 8], ..plan.clone() };
        gives(&noisy, &by_rank(&plan, |k| blocked(k) + 33 * k + 8 * 33 + 33));
        gives(&in_slots(plan.clone(), 34), &by_rank(&plan, |k| 33 + 34 * k + 26));
        gives(&in_slots(noisy, 34), &by_rank(&plan, |k| 33 + 34 * k + 8 * 34 + 26));
    }
}

/// 256 streams that send at every tick, in the longest slots, with 8 noise sources that hit at every tick. With a jitter of 2 the first
/// step comes to nearly 2^32, and the next to more than 2^62.
#[test]
fn the_greatest_sums() {
    for jitter in [0, 2, u32::MAX] {
        let mut plan = in_slots(crowd(256), LONGEST_SLOT);
        for s in &mut plan.streams {
            (s.period, s.jitter) = (1, jitter);
        }
        plan.gaps.fill(1);
        let steps = at_level(&plan, 255, |level| [level.busy_step(1), level.busy_step(u64::from(u32::MAX))]);
        assert!(jitter != 2 || steps[0] < 1 << 32 && steps[1] > 1 << 62, "{steps:?}");
        gives(&plan, &[Answer::None; 256]);
    }
}

/// The last of 256 rows is looked at as the first is.
#[test]
fn the_last_of_256_rows() {
    let plan = in_slots(crowd(256), 30);
    let last = |change: fn(&mut Stream)| {
        let mut plan = plan.clone();
        change(&mut plan.streams[255]);
        plan
    };
    let first_byte = 84 + 28 * 255;
    values_are_refused(&last(|s| s.priority.0 = 512), 3, first_byte + 4);
    values_are_refused(&last(|s| s.period = 0), 3, first_byte + 8);
    values_are_refused(&last(|s| s.payload = 0), 3, first_byte + 16);
    values_are_refused(&last(|s| s.deadline = 0), 3, first_byte + 20);
    values_are_refused(&last(|s| s.acknowledgement = 65_536), 3, first_byte + 24);
    values_are_refused(&last(|s| s.acknowledgement = 3), 10, 255);
    is_accepted(Edition::Three, &last(|s| s.acknowledgement = 2));
    let mut gaps = plan.gaps.clone();
    gaps[7] = 0;
    values_are_refused(&Plan { gaps, ..plan.clone() }, 3, 7_280);
}

/// Wherever two rows repeat each other, the later one is told; of several the lowest.
#[test]
fn repeats_in_256_rows() {
    for (early, late) in [(0, 1), (0, 63), (0, 64), (63, 64), (0, 127), (0, 128), (127, 128), (1, 255), (128, 255), (254, 255)] {
        let mut plan = crowd(256);
        plan.streams[late].label = plan.streams[early].label;
        values_are_refused(&plan, 5, late as u64);
        plan.streams[late].priority = plan.streams[early].priority;
        values_are_refused(&plan, 4, late as u64);
        for later in (late + 1..256).step_by(9) {
            plan.streams[later].priority = plan.streams[early].priority;
        }
        values_are_refused(&plan, 4, late as u64);
    }
}

/// A word or a byte fewer than 256 rows need is refused 6, and they stay.
#[test]
fn room_for_256_rows() {
    let (plan, short) = (crowd(256), Err(Refused { number: 6, place: 0 }));
    let file = file_of(&plan);
    let (mut words, mut bytes) = ([77; 4 * 256 - 1], [77; 7_283]);
    assert_eq!(livnakesh::answer_words(&file, &mut words), short);
    assert_eq!(livnakesh::screen_words(&plan.streams, &plan.timing, &plan.gaps, &mut words), short);
    assert_eq!(plain::answers(&file, &mut words), short);
    assert_eq!(livnakesh::rewrite(&file, &mut bytes).map(|_| ()), short);
    assert_eq!(livnakesh::write(256, 8, &values_of(&plan), &mut bytes).map(|_| ()), short);
    assert_eq!(plain::rewrite(&file, &mut bytes).map(|_| ()), short);
    assert_eq!((words, bytes), ([77; 4 * 256 - 1], [77; 7_283]));
    assert_eq!(livnakesh::answer_words(&file, &mut [77; 4 * 256]), Ok(()));
    assert_eq!(livnakesh::rewrite(&file, &mut [77; 7_284]), Ok(7_284));
}

/// 256 streams of edition 3 against the first 64 of them in an older file, and against one change in the last row.
#[test]
fn lighter_with_256_streams() {
    let plan = crowd(256);
    let file = file_of(&plan);
    let again = Compared::RunAgain;
    compared(&file, &file, Compared::Lighter);
    compared(&file, &file_in(Edition::One, &crowd(64)), Compared::Lighter);
    compared(&file_in(Edition::One, &crowd(64)), &file, again(Reason::NewLabel(Label(64))));
    compared(&file_of(&crowd(255)), &file, again(Reason::NewLabel(Label(255))));
    let changed = |row: usize, change: fn(&mut Stream)| {
        let mut plan = plan.clone();
        change(&mut plan.streams[row]);
        file_of(&plan)
    };
    for row in [0, 63, 64, 127, 128, 255] {
        let label = Label(row as u32);
        compared(&file, &changed(row, |s| s.period -= 1), again(Reason::ShorterPeriod(label)));
        compared(&file, &changed(row, |s| s.jitter += 1), again(Reason::LongerJitter(label)));
        compared(&file, &changed(row, |s| s.payload += 1), again(Reason::LongerPayload(label)));
        compared(&file, &changed(row, |s| s.deadline -= 1), again(Reason::ShorterDeadline(label)));
        compared(&file, &changed(row, |s| s.acknowledgement += 1), again(Reason::LongerAcknowledgement(label)));
        compared(&changed(row, |s| s.acknowledgement += 1), &file, Compared::Lighter);
        // A gap in the numbers overtakes none. The least urgent number of all lets the later ones pass, but for the last.
        let passed = if row == 255 { Compared::Lighter } else { again(Reason::LessUrgent(label)) };
        compared(&file, &changed(row, |s| s.priority.0 = 511), passed);
    }
    let mut turned = Plan { gaps: vec![4_000_000; 7], ..plan };
    turned.streams.reverse();
    compared(&file, &file_of(&turned), Compared::Lighter);
    turned.gaps.push(3_999_999);
    compared(&file, &file_of(&turned), again(Reason::MoreNoise(3_999_999)));
    turned.streams[0].priority = Priority(0);
    turned.streams[255].priority = Priority(255);
    compared(&file, &file_of(&turned), again(Reason::LessUrgent(Label(254))));
}

#[test]
fn lighter_in_slots() {
    let faster = in_slots(p1(), 29);
    let mut slower = in_slots(p1(), 31);
    let again = Compared::RunAgain;
    compared(&SLOTS, &SLOTS, Compared::Lighter);
    compared(&SLOTS, &file_of(&faster), Compared::Lighter);
    compared(&file_of(&faster), &SLOTS, again(Reason::GreaterConstant(P)));
    compared(&SLOTS, &P1, again(Reason::MasterNode));
    compared(&P1, &SLOTS, again(Reason::MasterNode));
    // The master node comes before the constants, and P after NB.
    slower.timing[NB] = 5;
    compared(&P1, &file_of(&slower), again(Reason::MasterNode));
    compared(&SLOTS, &file_of(&slower), again(Reason::GreaterConstant(NB)));
    slower.timing[NB] = 4;
    slower.streams[0].jitter = 1;
    compared(&SLOTS, &file_of(&slower), again(Reason::GreaterConstant(P)));
}

// ---- acknowledgements ----

/// C' is 20, 21 and 14, and C'' 28, 29 and 22. 10.1 is blocked by 10.10 (20) and sent (28); 10.10 has a jitter of 10, is blocked by
/// 11.2 (13), waits for 10.1 (28) and is sent (29); 11.2 waits for both (57) and is sent (22).
#[test]
fn p1_acknowledged() {
    let plan = acknowledged(p1(), &[3, 2, 0]);
    assert_eq!(written(&plan), Ok(ACKNOWLEDGED.to_vec()));
    assert_eq!(include_bytes!("../../../examples/acknowledged.plan"), &ACKNOWLEDGED);
    gives(&plan, &[met(48), met(80), met(79)]);
    assert_eq!([0, 1, 2].map(|row| at_level(&plan, row, |level| level.own.cost)), [28, 29, 22]);
}

/// A hit costs the longest of a stream and the more urgent ones, its acknowledgement too: 28, 29 and 29.
#[test]
fn p2_acknowledged() {
    let plan = acknowledged(Plan { gaps: vec![1_000], ..p1() }, &[3, 2, 0]);
    gives(&plan, &[missed(76), met(109), met(108)]);
}

/// C'' is 21, 22 and 15: 29 + 21, 10 + 29 + 30 + 22, 29 + 60 + 15.
#[test]
fn p1_acknowledged_in_slots() {
    let slots = |slot| in_slots(acknowledged(p1(), &[3, 2, 0]), slot);
    gives(&slots(30), &[met(50), met(91), met(104)]);
    gives(&slots(22), &[met(42), met(75), met(80)]);
    values_are_refused(&slots(21), 10, 1);
    values_are_refused(&slots(20), 10, 0);
}

/// Messages of 18, 20 and 15 ticks fit in a slot of 20, as long as no acknowledgement makes one longer than that.
#[test]
fn an_acknowledgement_is_part_of_the_slot() {
    let slots = |acknowledgements: &[u32]| in_slots(acknowledged(p1(), acknowledgements), 20);
    gives(&slots(&[2, 0, 5]), &[met(39), met(69), met(79)]);
    values_are_refused(&slots(&[2, 0, 6]), 10, 2);
    values_are_refused(&slots(&[2, 1, 6]), 10, 1);
    values_are_refused(&slots(&[65_535, 0, 0]), 10, 0);
    gives(&acknowledged(p1(), &[65_535, 0, 0]), &[Answer::None; 3]);
}

/// K stands last in its record, and is at most 65,535.
#[test]
fn k_is_0_to_65_535() {
    for (row, byte) in [(0, 108), (1, 136), (2, 164)] {
        let mut plan = p1();
        plan.streams[row].acknowledgement = 65_535;
        assert_eq!(rewritten(&file_of(&plan)), Ok(written_of(&plan)));
        for k in [65_536, u32::MAX] {
            plan.streams[row].acknowledgement = k;
            values_are_refused(&plan, 3, byte);
            values_are_refused(&in_slots(plan.clone(), 20), 3, byte);
        }
        // After the deadline, and before the next row and the gaps.
        plan.gaps = vec![0];
        values_are_refused(&plan, 3, byte);
        plan.streams[row].deadline = 0;
        values_are_refused(&plan, 3, byte - 4);
    }
    let mut plan = acknowledged(p1(), &[65_536]);
    plan.streams[1].period = 0;
    values_are_refused(&plan, 3, 108);
}

/// With every constant at its limit, ETG and LAG together, V is 4, U 66, and C'' 72 times 65,535; in slots it is 69 times that.
#[test]
fn the_largest_costs() {
    let mut timing = [65_535; 10];
    [timing[NB], timing[P]] = [32, 0];
    let streams = [1, 2].map(|k| Stream { acknowledgement: 65_535, ..stream(k, k, u32::MAX, 0, 65_535, u32::MAX) });
    let plan = Plan { timing, streams: streams.to_vec(), gaps: vec![] };
    for (etg, lag) in [(65_535, 0), (32_768, 32_767), (0, 65_535)] {
        let plan = entered(&plan, etg, lag);
        gives(&plan, &[met(9_174_899), met(9_437_040)]);
        gives(&in_slots(plan.clone(), 4_521_915), &[met(9_043_829), met(13_565_744)]);
        values_are_refused(&in_slots(plan, 4_521_914), 10, 0);
    }
}

/// An older file is written back as the file of edition 3 of the same plan, which is longer.
#[test]
fn older_files_are_rewritten() {
    assert_eq!(rewritten(&P1), Ok(p1_written().to_vec()));
    assert_eq!(include_bytes!("../../../examples/p1-rewritten.plan"), &p1_written());
    assert_eq!(rewritten(&SLOTS), Ok(file_of(&in_slots(entered(&p1(), 3, 0), 30))));
    for file in [&P1[..], &SLOTS[..], &p1_written()[..], &ACKNOWLEDGED[..]] {
        for rewrite in [livnakesh::rewrite, plain::rewrite] {
            let mut buffer = [77; 169];
            assert_eq!(rewrite(file, &mut buffer[..167]), Err(Refused { number: 6, place: 0 }));
            assert_eq!(buffer, [77; 169]);
            assert_eq!(rewrite(file, &mut buffer), Ok(168));
            assert_eq!(buffer[168], 77);
        }
    }
}

/// 42 words are seven streams in edition 2 and six in edition 3. Small words that are all different are right in every place.
#[test]
fn the_first_word_tells_the_records_apart() {
    let mut timing = BASE;
    [timing[LAG], timing[NB], timing[P]] = [0, 32, 200];
    let record = |k: u32| stream(6 * k + 1, 6 * k + 2, 6 * k + 3, 6 * k + 4, 6 * k + 5, 6 * k + 6);
    let seven = Plan { timing, streams: (0..7).map(record).collect(), gaps: vec![9] };
    let mut file = file_in(Edition::Two, &seven);
    assert_eq!(answers(&file).map(only_answers), Ok(vec![Answer::None; 7]));
    assert_eq!(rewritten(&file), Ok(file_of(&seven)));
    file[0] = 3;
    assert_eq!(answers(&file).map(only_answers), Ok(vec![Answer::None; 6]));
    assert_eq!(rewritten(&file), Ok(file));
}

#[test]
fn lighter_with_acknowledgements() {
    let longer = |row: usize| Compared::RunAgain(Reason::LongerAcknowledgement(Label(LABELS[row])));
    let with = |acknowledgements: &[u32]| acknowledged(p1(), acknowledgements);
    compared(&ACKNOWLEDGED, &ACKNOWLEDGED, Compared::Lighter);
    compared(&ACKNOWLEDGED, &file_of(&with(&[3, 1, 0])), Compared::Lighter);
    compared(&ACKNOWLEDGED, &file_of(&with(&[3, 3, 0])), longer(1));
    compared(&ACKNOWLEDGED, &file_of(&with(&[2, 1, 1])), longer(2));
    // What a shorter payload gains is not counted.
    let mut shorter = with(&[4, 2, 0]);
    shorter.streams[0].payload = 1;
    compared(&ACKNOWLEDGED, &file_of(&shorter), longer(0));
    // It comes after the deadline of its own stream, and before the next stream.
    shorter.streams[1].label = Label(1);
    compared(&ACKNOWLEDGED, &file_of(&shorter), longer(0));
    shorter.streams[0].deadline = 59;
    compared(&ACKNOWLEDGED, &file_of(&shorter), Compared::RunAgain(Reason::ShorterDeadline(Label(LABELS[0]))));
}

/// Their plans are compared and not their editions: an acknowledgement that is not in the file is 0, and P alone tells a master node.
#[test]
fn lighter_across_editions() {
    let (slots, without) = (file_of(&in_slots(p1(), 30)), p1_written());
    for (old, new) in [(&P1[..], &without[..]), (&SLOTS[..], &slots[..])] {
        compared(old, new, Compared::Lighter);
        compared(new, old, Compared::Lighter);
    }
    compared(&ACKNOWLEDGED, &P1, Compared::Lighter);
    compared(&P1, &ACKNOWLEDGED, Compared::RunAgain(Reason::LongerAcknowledgement(Label(LABELS[0]))));
    for (old, new) in [(&without[..], &slots[..]), (&ACKNOWLEDGED[..], &SLOTS[..]), (&P1[..], &slots[..])] {
        compared(old, new, Compared::RunAgain(Reason::MasterNode));
        compared(new, old, Compared::RunAgain(Reason::MasterNode));
    }
}

// ---- ETG and LAG ----

/// However the 3 of ETG and LAG are parted, U is 12, the answers are P1's, and one file is written.
#[test]
fn p1_with_its_lag_in_etg() {
    for (etg, lag) in [(3, 0), (2, 1), (1, 2), (0, 3)] {
        let plan = entered(&p1(), etg, lag);
        assert_eq!(plain::overhead(&plan.timing), 12);
        gives(&plan, &[met(43), met(75), met(74)]);
        assert_eq!(written(&plan), Ok(p1_written().to_vec()));
        gives(&in_slots(plan.clone(), 30), &[met(47), met(89), met(104)]);
        gives(&acknowledged(plan, &[3, 2, 0]), &[met(48), met(80), met(79)]);
    }
    gives(&entered(&p1(), 2, 0), &[met(41), met(72), met(71)]);
}

/// Of edition 3, and written anew all the same; what is written has no LAG, and is written back.
#[test]
fn a_file_of_edition_3_with_a_lag() {
    for (etg, lag) in [(2, 1), (1, 2), (0, 3)] {
        let mut file = ACKNOWLEDGED;
        [file[68], file[72]] = [etg, lag];
        assert_eq!(rewritten(&file), Ok(ACKNOWLEDGED.to_vec()));
        assert_eq!(answers(&file), answers(&ACKNOWLEDGED));
    }
    for file in [ACKNOWLEDGED, p1_written()] {
        assert_eq!(rewritten(&file), Ok(file.to_vec()));
    }
}

/// In every edition, and as values: each is at most 65,535, and so are both together. A sum is not cut to 32 bits.
#[test]
fn etg_and_lag_are_0_to_65_535_together() {
    for slot in [0, 65_600] {
        let plan = in_slots(p1(), slot);
        for (etg, lag) in [(65_535, 0), (65_534, 1), (32_768, 32_767), (1, 65_534), (0, 65_535)] {
            gives(&entered(&plan, etg, lag), &[Answer::None; 3]);
        }
        let wrong = [
            (65_535, 1, 11, 68),
            (32_768, 32_768, 11, 68),
            (1, 65_535, 11, 68),
            (65_535, 65_535, 11, 68),
            (65_536, 0, 3, 68),
            (0, 65_536, 3, 72),
            (65_535, 65_536, 3, 72),
            (65_536, 65_536, 3, 68),
            (u32::MAX, 1, 3, 68),
            (1, u32::MAX, 3, 72),
        ];
        for (etg, lag, number, place) in wrong {
            let plan = entered(&plan, etg, lag);
            values_are_refused(&plan, number, place);
            is_refused(&file_in(oldest(&plan), &plan), number, place);
        }
    }
}

/// A gap stands last of all, in every edition, and a wrong one still comes before 11.
#[test]
fn a_wrong_gap_comes_before_11() {
    let plan = |edition, gap| {
        let plan = Plan { gaps: vec![gap], ..entered(&p1(), 1, 65_535) };
        in_slots(plan, if edition == Edition::Two { 30 } else { 0 })
    };
    for (edition, byte) in EDITIONS.into_iter().zip([152, 156, 168]) {
        is_refused(&file_in(edition, &plan(edition, 0)), 3, byte);
        is_refused(&file_in(edition, &plan(edition, 1)), 11, 68);
    }
}

/// Messages of 18, 20 and 15 ticks with an ETG and a LAG of 3 together: each tick more of either makes all of them longer.
#[test]
fn a_lag_is_part_of_the_slot() {
    let slots = |etg, lag| in_slots(entered(&p1(), etg, lag), 22);
    for (etg, lag) in [(5, 0), (2, 3), (0, 5)] {
        gives(&slots(etg, lag), &[met(41), met(75), met(82)]);
        values_are_refused(&slots(etg, lag + 1), 10, 1);
        values_are_refused(&slots(etg + 3, lag), 10, 0);
    }
}

/// ETG and LAG are compared together, by the name of ETG, after G and before NB.
#[test]
fn lighter_with_etg_for_lag() {
    let file = |etg, lag| file_of(&entered(&p1(), etg, lag));
    let again = |k| Compared::RunAgain(Reason::GreaterConstant(k));
    for (etg, lag) in [(2, 1), (3, 0), (0, 3), (2, 0), (1, 1), (0, 0)] {
        for first in [&P1[..], &p1_written()[..], &file(2, 1)[..]] {
            compared(first, &file(etg, lag), Compared::Lighter);
        }
    }
    for (etg, lag) in [(2, 2), (3, 1), (4, 0), (0, 4), (1, 65_534)] {
        compared(&P1, &file(etg, lag), again(ETG));
        compared(&file(etg, lag), &P1, Compared::Lighter);
    }
    compared(&file(2, 0), &P1, again(ETG));
    let mut greater = entered(&p1(), 2, 2);
    greater.timing[NB] = 5;
    compared(&P1, &file_of(&greater), again(ETG));
    compared(&P1, &file_of(&entered(&greater, 0, 3)), again(NB));
    greater.timing[5] = 2;
    compared(&P1, &file_of(&greater), again(5));
}

// ---- the tournament ----

/// By the library, whose parting bit also says where each loser goes silent, and by the plain tournament.
#[test]
fn p12_is_won_by_row_1() {
    let priorities = [Priority(5), Priority(3), Priority(6)];
    let done = |phase| Outcome { answer: Ok(()), phase };
    let mut state = Tournament::start(4, &priorities).expect("three contenders");
    let mut marks = [77; 3];
    let mut said = livnakesh::start(4, &priorities, &mut marks);
    assert_eq!(marks, [1, 1, 1]);
    for (bit, left) in (1..).zip([[1, 1, 1], [0, 1, 0], [0, 1, 0], [0, 1, 0]]) {
        assert_eq!((said, state.phase), (done(Phase::AtBit(bit)), Phase::AtBit(bit)));
        said = livnakesh::step(4, said.phase, &priorities, &mut marks);
        state = state.step().expect("a state from a start");
        assert_eq!((marks, [0, 1, 2].map(|row| u8::from(state.marks[row]))), (left, left), "after bit {bit}");
    }
    let won = Phase::Finished(Row(1));
    assert_eq!((said, state.phase), (done(won), won));
    assert_eq!(livnakesh::step(4, won, &priorities, &mut marks), done(won));
    assert_eq!(state.step(), Ok(state));
    assert_eq!(marks, [0, 1, 0]);
    for loser in [Priority(5), Priority(6)] {
        assert_eq!(livnakesh::parting(4, Priority(3), loser), Ok(2));
    }
}
