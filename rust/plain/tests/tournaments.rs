//! The proved tournament and the plain one: starts, steps from states of any making, every byte of lent marks, and whole runs.

mod common;

use common::{bytes, need_all, tally_refusal, Rng, Tally};
use livnakesh::{Outcome, Phase, Priority, Refused, Row};
use plain::{Tournament, PLACES};

// ---- the parting bit ----

/// The first bit from the top, counted from 1, at which two priorities differ, looked for bit by bit.
fn first_difference(bits: u32, first: Priority, second: Priority) -> Option<u32> {
    (1..=bits).find(|bit| first.0 >> (bits - bit) & 1 != second.0 >> (bits - bit) & 1)
}

fn parting_alike(bits: u32, first: u32, second: u32, tally: &mut Tally) {
    let (first, second) = (Priority(first), Priority(second));
    let said = livnakesh::parting(bits, first, second);
    assert_eq!(said, plain::parting(bits, first, second), "parting: {bits} bits, {first:?} and {second:?}");
    if let Ok(bit) = said {
        assert_eq!(Some(bit), first_difference(bits, first, second), "parting: {bits} bits, {first:?} and {second:?}");
        tally.count(match bit {
            1 => "at the first bit",
            _ if bit == bits => "at the last bit",
            _ => "between",
        });
    }
    tally_refusal(tally, said);
}

#[test]
fn parting_bits() {
    let (mut rng, mut tally) = (Rng(0x9A27), Tally::default());
    let edges = [0, 1, 2, 3, 0x7FFF_FFFF, 0x8000_0000, 0x8000_0001, u32::MAX - 1, u32::MAX];
    for bits in (0..=40).chain([64, 0x8000_0000, u32::MAX]) {
        let most = if bits < 32 { (1 << bits) - 1 } else { u32::MAX };
        let near = [most, most.wrapping_add(1), most / 2, most / 2 + 1];
        for first in edges.into_iter().chain(near) {
            for second in edges.into_iter().chain(near) {
                parting_alike(bits, first, second, &mut tally);
            }
        }
    }
    for _ in 0..400_000 {
        let bits = rng.within(0, 34) as u32;
        let first = rng.wide();
        let second = if rng.one_in(8) { first } else { rng.wide() };
        parting_alike(bits, first, second, &mut tally);
        parting_alike(rng.within(1, 32) as u32, first & 15, first & 15 ^ rng.below(16) as u32, &mut tally);
    }
    tally.print("parting bits");
    need_all(&tally, &["answered", "refusal 8", "refusal 9", "at the first bit", "at the last bit", "between"], 10_000);
}

// ---- states of any making ----

/// A state as it is lent: a contender for each priority, and as many marks as it may be.
#[derive(Clone, Debug)]
struct Lent {
    bits: u32,
    phase: Phase,
    priorities: Vec<Priority>,
    marks: Vec<u8>,
}

impl Lent {
    fn state(&self) -> Tournament {
        Tournament {
            bits: self.bits,
            contenders: self.priorities.len(),
            priorities: std::array::from_fn(|row| self.priorities.get(row).copied().unwrap_or(Priority(0))),
            marks: std::array::from_fn(|row| self.marks.get(row).is_some_and(|&byte| byte != 0)),
            phase: self.phase,
        }
    }

    /// Refusal 6, which comes before all others.
    fn enough(&self) -> Result<(), Refused> {
        match self.marks.len() < self.priorities.len() {
            true => Err(Refused { number: 6, place: 0 }),
            false => Ok(()),
        }
    }

    /// What a start says and the marks that it leaves: 1 and 0 for in and out, and the bytes after the 128th as found.
    fn started(&self) -> (Outcome, Vec<u8>) {
        let mut marks = self.marks.clone();
        let started = self.enough().and_then(|()| Tournament::start(self.bits, &self.priorities)).map(|state| {
            for (byte, mark) in marks.iter_mut().zip(state.marks) {
                *byte = u8::from(mark);
            }
            state.phase
        });
        (said(started, Phase::NoWinner), marks)
    }

    /// What a step says and the marks that it leaves: 0 for each that goes out, and every other byte as found.
    fn stepped(&self) -> (Outcome, Vec<u8>) {
        let mut marks = self.marks.clone();
        let before = self.state();
        let stepped = self.enough().and_then(|()| before.step()).map(|after| {
            for row in (0..PLACES).filter(|&row| before.marks[row] && !after.marks[row]) {
                marks[row] = 0;
            }
            after.phase
        });
        (said(stepped, self.phase), marks)
    }
}

fn said(phase: Result<Phase, Refused>, if_refused: Phase) -> Outcome {
    Outcome { answer: phase.map(|_| ()), phase: phase.unwrap_or(if_refused) }
}

fn start_alike(lent: &Lent) -> Outcome {
    let mut marks = lent.marks.clone();
    let said = livnakesh::start(lent.bits, &lent.priorities, &mut marks);
    assert_eq!((said, marks), lent.started(), "start: {lent:?}");
    said
}

/// Takes the lent state a step on, unless it is refused.
fn step_alike(lent: &mut Lent) -> Outcome {
    let mut marks = lent.marks.clone();
    let said = livnakesh::step(lent.bits, lent.phase, &lent.priorities, &mut marks);
    let wanted = lent.stepped();
    assert_eq!((said, &marks), (wanted.0, &wanted.1), "step: {lent:?}");
    lent.marks = marks;
    lent.phase = said.phase;
    said
}

/// Counts that no tournament has, among them some that a cut to fewer bits would take for 2 or 3.
const WRONG_COUNTS: [usize; 9] = [0, 0, 129, 129, 130, 200, 256 + 2, 256 + 2, 65_536 + 3];

fn contenders(rng: &mut Rng) -> usize {
    match rng.below(8) {
        0 => rng.pick(&WRONG_COUNTS),
        1 => rng.within(1, 128) as usize,
        _ => rng.pick(&[1, 2, 3, 127, 128]),
    }
}

/// Mostly enough for all to differ.
fn bits(rng: &mut Rng, contenders: usize) -> u32 {
    let bits = match rng.below(8) {
        0 => rng.pick(&[0, 33, 33, 64, 0x8000_0000, u32::MAX]),
        1 => rng.within(1, 32) as u32,
        _ => rng.pick(&[1, 4, 31, 32]),
    };
    let too_few = (1..32).contains(&bits) && contenders > 1 << bits;
    if too_few && !rng.one_in(4) {
        rng.pick(&[7, 31, 32])
    } else {
        bits
    }
}

/// The largest priority that fits, or any if the bit count is wrong.
fn most_priority(bits: u32) -> u32 {
    match bits {
        1..=31 => (1 << bits) - 1,
        _ => u32::MAX,
    }
}

/// How many marks are lent: too few, as many as there are contenders, all places, or more than there are.
fn length(rng: &mut Rng, contenders: usize) -> usize {
    let places = contenders.max(PLACES);
    match rng.below(8) {
        0 => rng.below(contenders as u64 + 1) as usize,
        1 => contenders.saturating_sub(1),
        2 | 3 => contenders,
        4 => rng.within(contenders as u64, places as u64) as usize,
        5 | 6 => places,
        _ => rng.within(places as u64 + 1, places as u64 + 72) as usize,
    }
}

/// Different priorities that fit, as far as there are such; then perhaps one that is wrong.
fn priorities(rng: &mut Rng, bits: u32, contenders: usize) -> Vec<Priority> {
    let most = most_priority(bits);
    let distinct = contenders.min(PLACES).min((most as usize).saturating_add(1));
    let mut words = rng.distinct(distinct, most);
    words.extend((distinct..contenders).map(|_| rng.within(0, u64::from(most)) as u32));
    if contenders == 0 {
        return Vec::new();
    }
    let [one, other] = [0, 1].map(|_| rng.below(contenders as u64) as usize);
    match rng.below(8) {
        0 => words[one] = words[other],
        1 => words[one] = rng.pick(&[most.wrapping_add(1), most / 2 + 1, u32::MAX, 0x8000_0000]),
        2 => (words[one], words[other]) = (rng.wide(), rng.wide()),
        // Next to each other, so that they part at the last bit.
        3 => words[one] = words[other] ^ 1,
        _ => {}
    }
    words.into_iter().map(Priority).collect()
}

fn phase(rng: &mut Rng, bits: u32, contenders: usize) -> Phase {
    let row = contenders.min(PLACES) as u32;
    match rng.below(8) {
        0..=2 => Phase::AtBit(rng.within(1, u64::from(bits.clamp(1, 40))) as u32),
        3 => Phase::AtBit(bits),
        4 => Phase::AtBit(rng.pick(&[0, bits.wrapping_add(1), 33, 256 + 1, u32::MAX])),
        5 => Phase::Finished(Row(rng.below(u64::from(row) + 1) as u32)),
        6 => Phase::Finished(Row(rng.pick(&[row.saturating_sub(1), row, 127, 128, 256, u32::MAX]))),
        _ => Phase::NoWinner,
    }
}

fn marks(rng: &mut Rng, contenders: usize) -> Vec<u8> {
    let lent = length(rng, contenders);
    let mut marks = bytes(rng.next(), lent.max(PLACES));
    let any = rng.one_in(2);
    let kind = rng.below(4);
    let one = rng.below(contenders.clamp(1, PLACES) as u64) as usize;
    for (row, mark) in marks[..PLACES].iter_mut().enumerate() {
        let is_in = match kind {
            0 => false,
            1 => true,
            2 => row == one,
            _ => *mark & 4 != 0,
        };
        // Any byte but 0 is in.
        *mark = u8::from(is_in) * if any { rng.pick(&[1, 2, 128, 254, 255]) } else { 1 };
    }
    marks.truncate(lent);
    marks
}

fn made_up(rng: &mut Rng) -> Lent {
    let contenders = contenders(rng);
    let bits = bits(rng, contenders);
    let priorities = priorities(rng, bits, contenders);
    Lent { bits, phase: phase(rng, bits, contenders), priorities, marks: marks(rng, contenders) }
}

/// What kind of state was lent, by its values and not by how it was drawn.
fn tally_lent(tally: &mut Tally, lent: &Lent) {
    let (bits, contenders) = (lent.bits, lent.priorities.len());
    tally.count(match contenders {
        0..=3 | 127..=129 => format!("contenders: {contenders}"),
        4..=126 => "contenders: 4 to 126".into(),
        _ => "contenders: far too many".into(),
    });
    tally.count(match bits {
        0 | 1 | 4 | 31 | 32 | 33 => format!("bits: {bits}"),
        2..=30 => "bits: 2 to 30, not 4".into(),
        _ => "bits: far too many".into(),
    });
    tally.count(match lent.phase {
        Phase::AtBit(bit) if bit >= 1 && bit <= bits => "phase: at a bit within the bit count",
        Phase::AtBit(_) => "phase: at a bit outside",
        Phase::Finished(row) if (row.0 as usize) < contenders => "phase: finished, a contender's row",
        Phase::Finished(_) => "phase: finished, no contender's row",
        Phase::NoWinner => "phase: no winner",
    });
    tally.count(match lent.marks.len() {
        length if length < contenders => "lent marks: fewer than contenders",
        0..=127 => "lent marks: fewer than 128",
        128 => "lent marks: 128",
        _ => "lent marks: more than 128",
    });
    let state = lent.state();
    if (1..=PLACES).contains(&contenders) {
        let used = &state.priorities[..contenders];
        tally.count(match used {
            _ if used.iter().any(|p| p.0 > most_priority(bits)) => "priorities: one does not fit",
            _ if (1..contenders).any(|row| used[..row].contains(&used[row])) => "priorities: repeated",
            _ => "priorities: different",
        });
        tally.count(match state.marks[..contenders].iter().filter(|&&mark| mark).count() {
            0 => "marks: none in",
            1 => "marks: one in",
            some if some == contenders => "marks: all in",
            _ => "marks: some in",
        });
    }
    if lent.marks.iter().take(PLACES).any(|&byte| byte > 1) {
        tally.count("marks: in by a byte above 1");
    }
}

/// What a step that was not refused came to.
fn tally_step(tally: &mut Tally, before: &Lent, after: &Lent) {
    let contenders = before.priorities.len();
    let fewer = before.state().marks != after.state().marks;
    tally.count(match (before.phase, after.phase) {
        (Phase::AtBit(_), Phase::AtBit(_)) if fewer => "step: to the next bit, some silent",
        (Phase::AtBit(_), Phase::AtBit(_)) => "step: to the next bit, none silent",
        (Phase::AtBit(_), Phase::Finished(_)) if after.state().marks[..contenders].iter().filter(|&&mark| mark).count() > 1 => {
            "step: to the end, several left"
        }
        (Phase::AtBit(_), Phase::Finished(_)) => "step: to the end, one left",
        (Phase::AtBit(_), Phase::NoWinner) => "step: to the end, none left",
        (Phase::Finished(_), _) => "step: finished already",
        (Phase::NoWinner, _) => "step: no winner already",
    });
    if before.state().marks[contenders..].contains(&true) {
        tally.count("step: a mark in an unused place");
    }
    if after.marks.iter().any(|&byte| byte > 1) {
        tally.count("step: a byte above 1 kept");
    }
    if let (1..=3 | 127 | 128, 1 | 4 | 31 | 32) = (contenders, before.bits) {
        tally.count(format!("step: {contenders} contenders, {} bits", before.bits));
    }
}

#[test]
fn made_up_states() {
    let (mut rng, mut tally) = (Rng(0x57A7E), Tally::default());
    for _ in 0..200_000 {
        let mut lent = made_up(&mut rng);
        tally_lent(&mut tally, &lent);
        match start_alike(&lent).answer {
            Ok(()) => tally.count("start: done"),
            Err(refused) => tally.count(format!("start: refusal {}", refused.number)),
        }
        let before = lent.clone();
        match step_alike(&mut lent).answer {
            Ok(()) => tally_step(&mut tally, &before, &lent),
            Err(refused) => {
                tally.count(format!("step: refusal {}", refused.number));
                if refused.number == 8 {
                    tally.count(if refused.place == 0 { "step: 8 at 0" } else { "step: 8 at a later row" });
                }
            }
        }
    }
    tally.print("made-up states");
    for count in [0, 1, 2, 3, 127, 128, 129] {
        tally.need(&format!("contenders: {count}"), 2_000);
    }
    for bits in [0, 1, 4, 31, 32, 33] {
        tally.need(&format!("bits: {bits}"), 2_000);
    }
    for length in ["fewer than contenders", "fewer than 128", "128", "more than 128"] {
        tally.need(&format!("lent marks: {length}"), 10_000);
    }
    for bits in [1, 4, 31, 32] {
        for count in [1, 2, 3, 127, 128].into_iter().filter(|&count| count <= 1_u64 << bits) {
            tally.need(&format!("step: {count} contenders, {bits} bits"), 500);
        }
    }
    need_all(&tally, &["contenders: far too many", "contenders: 4 to 126", "bits: 2 to 30, not 4", "bits: far too many"], 2_000);
    need_all(&tally, &["phase: at a bit within the bit count", "phase: at a bit outside", "phase: no winner"], 10_000);
    need_all(&tally, &["phase: finished, a contender's row", "phase: finished, no contender's row"], 10_000);
    need_all(&tally, &["priorities: one does not fit", "priorities: repeated", "priorities: different"], 5_000);
    need_all(&tally, &["marks: none in", "marks: one in", "marks: some in", "marks: all in"], 10_000);
    need_all(&tally, &["marks: in by a byte above 1", "start: done"], 10_000);
    need_all(&tally, &["start: refusal 6", "start: refusal 7", "start: refusal 8", "start: refusal 9"], 5_000);
    need_all(&tally, &["step: refusal 6", "step: refusal 7", "step: refusal 8", "step: refusal 9"], 5_000);
    need_all(
        &tally,
        &["step: 8 at 0", "step: 8 at a later row", "step: a mark in an unused place", "step: a byte above 1 kept"],
        2_000,
    );
    need_all(&tally, &["step: to the next bit, some silent", "step: to the next bit, none silent"], 5_000);
    need_all(&tally, &["step: to the end, one left", "step: to the end, several left", "step: to the end, none left"], 2_000);
    need_all(&tally, &["step: finished already", "step: no winner already"], 5_000);
}

/// From a state of any making to its end, which is where several or none may be left.
#[test]
fn runs_of_made_up_states() {
    let (mut rng, mut tally) = (Rng(0x204), Tally::default());
    for _ in 0..30_000 {
        let mut lent = made_up(&mut rng);
        let mut steps = 0;
        while let Phase::AtBit(_) = lent.phase {
            if step_alike(&mut lent).answer.is_err() {
                break;
            }
            steps += 1;
        }
        if steps == 0 {
            continue;
        }
        let contenders = lent.priorities.len();
        let marked = (0..contenders).filter(|&row| lent.state().marks[row]).count();
        let lowest = lent.state().marks[..contenders].iter().position(|&mark| mark);
        assert_eq!(lent.phase, lowest.map_or(Phase::NoWinner, |row| Phase::Finished(Row(row as u32))), "{lent:?}");
        tally.count(["run: none left", "run: one left", "run: several left"][marked.min(2)]);
        tally.count(format!("run: {} steps", if steps < 16 { "1 to 15" } else { "16 to 32" }));
        let end = lent.clone();
        assert_eq!(step_alike(&mut lent), Outcome { answer: Ok(()), phase: end.phase });
        assert_eq!(lent.marks, end.marks);
    }
    tally.print("runs of made-up states");
    need_all(&tally, &["run: none left", "run: one left", "run: several left", "run: 1 to 15 steps", "run: 16 to 32 steps"], 500);
}

// ---- from a start to the end ----

fn entrants(rng: &mut Rng) -> (u32, Vec<Priority>) {
    let bits = match rng.below(4) {
        0 => rng.pick(&[1, 4, 7, 31, 32]),
        _ => rng.within(1, 32) as u32,
    };
    let most = most_priority(bits);
    let count = if rng.one_in(4) { rng.pick(&[1, 2, 3, 127, 128]) } else { rng.within(1, 128) };
    let count = count.min(u64::from(most) + 1) as usize;
    (bits, rng.distinct(count, most).into_iter().map(Priority).collect())
}

/// The smallest wins, and each loser goes silent at the bit where the library says that it and the winner part.
#[test]
fn losers_go_silent_where_they_part() {
    let (mut rng, mut tally) = (Rng(0x7042), Tally::default());
    for _ in 0..8_000 {
        let (bits, entered) = entrants(&mut rng);
        let contenders = entered.len();
        let winner = (0..contenders).min_by_key(|&row| entered[row]).expect("a contender");
        let silent_at = |row: usize| match row == winner {
            true => u32::MAX,
            false => livnakesh::parting(bits, entered[winner], entered[row]).expect("two of a start"),
        };
        let silent_at: Vec<u32> = (0..contenders).map(silent_at).collect();
        let found = bytes(rng.next(), rng.pick(&[contenders, 128, 150]));
        let mut lent = Lent { bits, phase: Phase::NoWinner, priorities: entered, marks: found.clone() };
        let wanted = |bit: u32| {
            let mut marks = found.clone();
            for (row, mark) in marks.iter_mut().take(PLACES).enumerate() {
                *mark = u8::from(silent_at.get(row).is_some_and(|&silent| silent > bit));
            }
            marks
        };
        let mut said = livnakesh::start(bits, &lent.priorities, &mut lent.marks);
        assert_eq!(lent.marks, wanted(0), "start: {lent:?}");
        for bit in 1..=bits {
            assert_eq!(said, Outcome { answer: Ok(()), phase: Phase::AtBit(bit) }, "before bit {bit}: {lent:?}");
            lent.phase = said.phase;
            said = step_alike(&mut lent);
            assert_eq!(lent.marks, wanted(bit), "after bit {bit}: {lent:?}");
            tally.count("step");
        }
        assert_eq!(said, Outcome { answer: Ok(()), phase: Phase::Finished(Row(winner as u32)) }, "{lent:?}");
        assert_eq!(step_alike(&mut lent), said);
        assert_eq!(lent.marks, wanted(bits), "a step after the end: {lent:?}");
        for silent in silent_at.into_iter().filter(|&silent| silent < u32::MAX) {
            tally.count("loser silent where it parts");
            tally.count(match silent {
                1 => "silent at: the top bit",
                silent if silent == bits => "silent at: the last bit",
                _ => "silent at: a bit between",
            });
        }
        tally.count(match contenders {
            1..=3 | 127 | 128 => format!("run: {contenders} contenders"),
            _ => "run: 4 to 126 contenders".into(),
        });
        tally.count(match bits {
            1 | 4 | 31 | 32 => format!("run: {bits} bits"),
            _ => "run: other bit counts".into(),
        });
    }
    tally.print("tournaments from a start to the end");
    need_all(&tally, &["step", "loser silent where it parts", "silent at: the top bit", "silent at: a bit between"], 50_000);
    need_all(&tally, &["run: 1 contenders", "run: 2 contenders", "run: 3 contenders", "run: 4 to 126 contenders"], 100);
    need_all(&tally, &["run: 127 contenders", "run: 128 contenders", "silent at: the last bit"], 100);
    need_all(&tally, &["run: 1 bits", "run: 4 bits", "run: 31 bits", "run: 32 bits", "run: other bit counts"], 100);
}

// ---- by hand ----

fn state(bits: u32, priorities: &[u32], phase: Phase) -> Lent {
    let priorities: Vec<Priority> = priorities.iter().copied().map(Priority).collect();
    let marks = vec![1; priorities.len().max(PLACES)];
    Lent { bits, phase, priorities, marks }
}

fn with_marks(marks: &[u8], lent: Lent) -> Lent {
    Lent { marks: marks.to_vec(), ..lent }
}

fn done(phase: Phase) -> Outcome {
    Outcome { answer: Ok(()), phase }
}

/// Not by the plain tournament alone: the number and the place stand here, and the bytes are as found.
fn step_is_refused(lent: &Lent, number: u64, place: u64) {
    let mut after = lent.clone();
    let answer = Err(Refused { number, place });
    assert_eq!(step_alike(&mut after), Outcome { answer, phase: lent.phase }, "{lent:?}");
    assert_eq!(after.marks, lent.marks);
}

fn start_is_refused(lent: &Lent, number: u64, place: u64) {
    let mut marks = lent.marks.clone();
    let answer = Err(Refused { number, place });
    assert_eq!(livnakesh::start(lent.bits, &lent.priorities, &mut marks), Outcome { answer, phase: Phase::NoWinner }, "{lent:?}");
    assert_eq!(marks, lent.marks);
    start_alike(lent);
}

#[test]
fn refusals_of_states() {
    let (at, won) = (Phase::AtBit, |row| Phase::Finished(Row(row)));
    step_is_refused(&state(0, &[], at(9)), 7, 0);
    step_is_refused(&state(0, &[1; 129], Phase::NoWinner), 7, 0);
    step_is_refused(&state(0, &[1; 258], Phase::NoWinner), 7, 0);
    step_is_refused(&state(0, &[1, 1], at(1)), 8, 0);
    step_is_refused(&state(33, &[1, 1], won(5)), 8, 0);
    step_is_refused(&state(3, &[1, 8, 9], at(0)), 8, 1);
    step_is_refused(&state(3, &[1, 2, 2], at(0)), 8, 0);
    step_is_refused(&state(3, &[1, 2, 2], at(4)), 8, 0);
    step_is_refused(&state(3, &[1, 2, 2], won(3)), 8, 0);
    step_is_refused(&state(3, &[1, 2, 2], won(2)), 9, 2);
    step_is_refused(&state(3, &[1, 2, 2], Phase::NoWinner), 9, 2);
}

#[test]
fn refusals_of_starts() {
    start_is_refused(&state(0, &[], Phase::NoWinner), 7, 0);
    start_is_refused(&state(8, &[0; 129], Phase::NoWinner), 7, 0);
    start_is_refused(&state(0, &[3; 258], Phase::NoWinner), 7, 0);
    start_is_refused(&state(0, &[3, 3], Phase::NoWinner), 8, 0);
    start_is_refused(&state(33, &[3, 3], Phase::NoWinner), 8, 0);
    start_is_refused(&state(2, &[3, 3, 4], Phase::NoWinner), 8, 2);
    start_is_refused(&state(2, &[3, 3, 3], Phase::NoWinner), 9, 1);
}

/// 6 comes before 7, 8 and 9, whatever else is wrong, and nothing is written.
#[test]
fn fewer_marks_than_contenders() {
    let too_many = vec![0; 129];
    let wrong = [(4, &[5, 3, 6][..]), (0, &[5, 3, 6]), (2, &[5, 3, 6]), (4, &[5, 5, 6]), (4, &too_many)];
    for (bits, priorities) in wrong {
        for fewer in [0, 1, 2, priorities.len() - 1] {
            for phase in [Phase::AtBit(1), Phase::AtBit(9), Phase::Finished(Row(0)), Phase::Finished(Row(9)), Phase::NoWinner] {
                let lent = with_marks(&vec![7; fewer], state(bits, priorities, phase));
                step_is_refused(&lent, 6, 0);
                start_is_refused(&lent, 6, 0);
            }
        }
    }
    let enough = with_marks(&[7, 7, 7], state(4, &[5, 3, 6], Phase::AtBit(1)));
    assert_eq!(start_alike(&enough), done(Phase::AtBit(1)));
    assert_eq!(step_alike(&mut enough.clone()), done(Phase::AtBit(2)));
    // Nobody needs no marks, and is refused for being nobody.
    start_is_refused(&with_marks(&[], state(4, &[], Phase::NoWinner)), 7, 0);
    step_is_refused(&with_marks(&[], state(4, &[], Phase::AtBit(1))), 7, 0);
    start_is_refused(&with_marks(&[7; 129], state(4, &too_many, Phase::NoWinner)), 7, 0);
}

/// Two priorities are two contenders, however many marks are lent: nobody of priority 0 joins them.
#[test]
fn no_contender_is_made_up() {
    let mut lent = with_marks(&[7; 130], state(3, &[6, 5], Phase::NoWinner));
    let mut said = livnakesh::start(3, &lent.priorities, &mut lent.marks);
    assert_eq!(said, done(Phase::AtBit(1)));
    assert_eq!((&lent.marks[..3], &lent.marks[127..]), (&[1, 1, 0][..], &[0, 7, 7][..]));
    for _ in 0..3 {
        lent.phase = said.phase;
        said = step_alike(&mut lent);
    }
    assert_eq!(said, done(Phase::Finished(Row(1))));
    assert_eq!((&lent.marks[..3], &lent.marks[127..]), (&[0, 1, 0][..], &[0, 7, 7][..]));
}

#[test]
fn ends_that_no_start_has() {
    let none = with_marks(&[0, 0], state(3, &[1, 2], Phase::AtBit(3)));
    assert_eq!(step_alike(&mut none.clone()), done(Phase::NoWinner));
    // An unused place has no winner.
    assert_eq!(step_alike(&mut with_marks(&[0, 0, 1], none)), done(Phase::NoWinner));
    assert_eq!(step_alike(&mut state(3, &[4, 6], Phase::AtBit(3))), done(Phase::Finished(Row(0))));
}

/// Only the byte of a contender that goes out is changed.
#[test]
fn bytes_that_a_step_keeps() {
    // Row 0 goes out, row 1 is in by a 7, row 2 was out; marks in unused places are not heard and not touched.
    let mut lent = with_marks(&[9; 130], state(3, &[7, 5, 4], Phase::AtBit(2)));
    lent.marks[1] = 7;
    lent.marks[2] = 0;
    assert_eq!(step_alike(&mut lent), done(Phase::AtBit(3)));
    assert_eq!((&lent.marks[..4], &lent.marks[4..]), (&[0, 7, 0, 9][..], &[9; 126][..]));
    // A finished state is handed back as it is, byte for byte.
    for phase in [Phase::Finished(Row(2)), Phase::NoWinner] {
        let found: Vec<u8> = (0..200).map(|k| k as u8).collect();
        let mut lent = with_marks(&found, state(3, &[7, 5, 4], phase));
        assert_eq!(step_alike(&mut lent), done(phase));
        assert_eq!(lent.marks, found);
    }
}

// ---- the numbers themselves ----

#[repr(C)]
struct Stepped {
    refusal: u64,
    place: u64,
    phase: u64,
    at: u64,
}

extern "C" {
    fn livnakesh_step(
        bits: u32,
        phase: u32,
        at: u32,
        priorities: *const u32,
        priority_count: usize,
        marks: *mut u8,
        mark_count: usize,
    ) -> Stepped;
}

fn step_numbers(bits: u32, phase: u32, at: u32, marks: &mut [u8]) -> [u64; 4] {
    let priorities = [5, 3, 6];
    // SAFETY: both slices outlive the call, and the library stays within them.
    let said = unsafe { livnakesh_step(bits, phase, at, priorities.as_ptr(), 3, marks.as_mut_ptr(), marks.len()) };
    [said.refusal, said.place, said.phase, said.at]
}

/// The wrapper's phases have no numbers above 2, and no number beside no winner.
#[test]
fn phases_by_number() {
    let step = |bits, phase, at| {
        let mut marks = [7, 0, 9];
        (step_numbers(bits, phase, at, &mut marks), marks)
    };
    assert_eq!(step(4, 0, 2), ([0, 0, 0, 3], [7, 0, 9]));
    assert_eq!(step(4, 0, 3), ([0, 0, 0, 4], [7, 0, 0]));
    assert_eq!(step(4, 0, 4), ([0, 0, 1, 2], [0, 0, 9]));
    assert_eq!(step(4, 1, 2), ([0, 0, 1, 2], [7, 0, 9]));
    assert_eq!(step(4, 0, 5), ([8, 0, 0, 5], [7, 0, 9]));
    assert_eq!(step(4, 1, u32::MAX), ([8, 0, 1, u64::from(u32::MAX)], [7, 0, 9]));
    assert_eq!(step(2, 1, 1), ([8, 0, 1, 1], [7, 0, 9]));
    // A phase from 2 on has no winner, whatever stands beside it, and is handed back as 2 and 0, refused or not.
    for phase in [2, 3, 4, 255, 256, 257, 65_536, 0x8000_0001, u32::MAX] {
        for at in [0, 1, 5, u32::MAX] {
            assert_eq!(step(4, phase, at), ([0, 0, 2, 0], [7, 0, 9]), "phase {phase}, {at}");
            assert_eq!(step(40, phase, at), ([8, 0, 2, 0], [7, 0, 9]), "phase {phase}, {at}");
            let mut two = [7, 7];
            assert_eq!((step_numbers(4, phase, at, &mut two), two), ([6, 0, 2, 0], [7, 7]), "phase {phase}, {at}");
        }
    }
    // One that is 0 or 1 is handed back as lent, right or wrong.
    for (phase, at) in [(0, 0), (0, 9), (1, 2), (1, u32::MAX)] {
        let mut two = [7, 7];
        assert_eq!((step_numbers(4, phase, at, &mut two), two), ([6, 0, u64::from(phase), u64::from(at)], [7, 7]));
    }
}
