//! The built programs, run by `./run` as a person runs them: every byte that they print and the status that they end with, on all cases
//! of the gate, on drawn plans and tournaments, and on input that comes byte by byte. The expected text is made here, from the
//! plain planner's answers; for the cases it is what stands in their files.
//!
//! They are built first (`./run`), or the first call here proves them.

mod common;

use common::{
    any_file_of, drawn, etg_and_lag_of, file_in, file_of, is_short, need_all, stream, tally_limit, tally_streams, terms, Rng,
    Tally, BASE, LARGEST, MANY, MOST_STREAMS,
};
use livnakesh::{Compared, Label, Phase, Priority, Reason, Refused};
use plain::{self, Analysis, Edition, Level, Plan, Tournament, ETG, LAG, NB, P, ROW};
use std::io::Write;
use std::path::{Path, PathBuf};
use std::process::{Command, Stdio};
use std::sync::Once;

const ANSWERED: i32 = 0;
const RUN_AGAIN: i32 = 1;
const REFUSED: i32 = 2;

/// Those that work on a plan file, and all.
const ON_PLANS: [&str; 4] = ["listing", "refusals", "rewrite", "waits"];
const PROGRAMS: [&str; 6] = ["listing", "refusals", "rewrite", "waits", "lighter", "replay"];

fn top() -> PathBuf {
    Path::new(env!("CARGO_MANIFEST_DIR")).join("../..")
}

/// What a program printed, and the status that it ended with.
type Ran = (Vec<u8>, i32);

/// One call of each program, one after the other, before any other: what has changed is proved and built by then.
fn build() {
    static BUILT: Once = Once::new();
    BUILT.call_once(|| {
        for program in PROGRAMS {
            let ran = Command::new(top().join("run")).arg(program).stdin(Stdio::null()).output().expect("./run starts");
            assert_ne!(ran.status.code(), Some(3), "{program}: {}", lines(&ran.stderr));
        }
    });
}

fn run_in(folder: &Path, program: &str, words: &[&str], input: &[u8], at_once: usize) -> Ran {
    build();
    let mut child = Command::new(top().canonicalize().expect("the repository").join("run"))
        .arg(program)
        .args(words)
        .current_dir(folder)
        .stdin(Stdio::piped())
        .stdout(Stdio::piped())
        .stderr(Stdio::null())
        .spawn()
        .expect("./run starts");
    let mut stdin = child.stdin.take().expect("a pipe");
    let input = input.to_vec();
    // A program that has read enough closes its end, and what is written after that is nobody's.
    let feeder = std::thread::spawn(move || {
        for part in input.chunks(at_once) {
            if stdin.write_all(part).and_then(|()| stdin.flush()).is_err() {
                break;
            }
        }
    });
    let output = child.wait_with_output().expect("./run ends");
    feeder.join().expect("the input is written");
    (output.stdout, output.status.code().expect("an exit status"))
}

fn run(program: &str, words: &[&str], input: &[u8]) -> Ran {
    run_in(&top(), program, words, input, usize::MAX)
}

// ---- what must be printed ----

fn refusal(refused: Refused) -> String {
    format!("refused {} at {}\n", refused.number, refused.place)
}

fn label(label: Label) -> String {
    format!("{}.{}", label.0 >> 16, label.0 & 0xffff)
}

/// The listing of a file, with the answer words that `answer` gives for it.
fn listing_by(file: &[u8], answer: impl Fn(&[u8], &mut [u64]) -> Result<(), Refused>) -> String {
    let mut words = [0; ROW * MOST_STREAMS];
    if let Err(refused) = answer(file, &mut words) {
        return refusal(refused);
    }
    let plan = plain::read(file).expect("a plan that is answered");
    let row = |(stream, words): (&livnakesh::Stream, &[u64])| {
        let worst = || format!("{} {}", words[1], words[2]);
        let (worst, verdict) = match words[0] {
            0 => (worst(), "met"),
            1 => (worst(), "missed"),
            _ => ("- -".into(), "none"),
        };
        format!("{} {} {worst} {} {verdict}\n", label(stream.label), stream.priority.0, stream.deadline)
    };
    let rows: String = plan.streams.iter().zip(words.chunks(ROW)).map(row).collect();
    format!("label priority bound instance deadline verdict\n{rows}")
}

fn listing(file: &[u8]) -> String {
    listing_by(file, plain::answers)
}

/// What `waits` prints of a file, with the evaluations and the limit that `count` gives for each stream.
fn waits_by(file: &[u8], count: impl Fn(&Level) -> (u64, u64)) -> String {
    let plan = match plain::read(file) {
        Ok(plan) => plan,
        Err(refused) => return refusal(refused),
    };
    let mut rows = vec![String::new(); plan.streams.len()];
    for level in Analysis::new(&plan).levels() {
        let (evaluations, limit) = count(&level);
        rows[level.row] = format!("{} {evaluations} {limit}\n", label(plan.streams[level.row].label));
    }
    format!("label evaluations limit\n{}", rows.concat())
}

fn evaluations_and_limit(level: &Level) -> (u64, u64) {
    let search = level.search();
    (search.evaluations, level.limit(search.busy_period))
}

fn waits(file: &[u8]) -> String {
    waits_by(file, evaluations_and_limit)
}

fn fine(file: &[u8]) -> String {
    plain::read(file).map_or_else(refusal, |_| "fine\n".into())
}

/// One file is written of a plan, of edition 3 and without a LAG.
fn rewritten(file: &[u8]) -> Vec<u8> {
    plain::read(file).map_or_else(|refused| refusal(refused).into_bytes(), |plan| file_of(&plan))
}

fn status(file: &[u8]) -> i32 {
    plain::read(file).map_or(REFUSED, |_| ANSWERED)
}

const CONSTANTS: [&str; 10] = ["F", "E", "TFCS", "SWX", "H", "G", "ETG", "LAG", "NB", "P"];

fn reason(reason: Reason) -> String {
    match reason {
        Reason::MasterNode => "one plan has a master node and the other has none".into(),
        Reason::GreaterConstant(LAG) => panic!("a plan that was read has no LAG"),
        Reason::GreaterConstant(k) => format!("{} is greater", CONSTANTS[k]),
        Reason::NewLabel(l) => format!("{} is not in the first plan", label(l)),
        Reason::ShorterPeriod(l) => format!("{} has a shorter period", label(l)),
        Reason::LongerJitter(l) => format!("{} has a longer jitter", label(l)),
        Reason::LongerPayload(l) => format!("{} has a longer payload", label(l)),
        Reason::ShorterDeadline(l) => format!("{} has a shorter deadline", label(l)),
        Reason::LongerAcknowledgement(l) => format!("{} has a longer acknowledgement", label(l)),
        Reason::LessUrgent(l) => format!("{} comes after a stream that it came before", label(l)),
        Reason::MoreNoise(gap) => format!("more noise sources with a gap of {gap} or less"),
    }
}

fn told(old: &[u8], new: &[u8]) -> (String, i32) {
    match plain::lighter(old, new) {
        Compared::Lighter => ("lighter\n".into(), ANSWERED),
        Compared::FirstRefused(refused) => (format!("first {}", refusal(refused)), REFUSED),
        Compared::SecondRefused(refused) => (format!("second {}", refusal(refused)), REFUSED),
        Compared::RunAgain(why) => (format!("run again: {}\n", reason(why)), RUN_AGAIN),
    }
}

fn rows(which: impl Iterator<Item = usize>) -> String {
    let rows: String = which.map(|row| format!(" {row}")).collect();
    if rows.is_empty() {
        " none".into()
    } else {
        rows
    }
}

/// The replay of a tournament whose step is `step`.
fn replay_by(bits: u32, priorities: &[Priority], step: impl Fn(&Tournament) -> Tournament) -> String {
    let mut state = match Tournament::start(bits, priorities) {
        Ok(state) => state,
        Err(refused) => return refusal(refused),
    };
    let mut text = String::new();
    for bit in 1..=bits {
        let sends_0 = |row: usize| state.marks[row] && state.priorities[row].0 >> (bits - bit) & 1 == 0;
        let carrier = if (0..state.contenders).any(sends_0) { "carrier heard" } else { "no carrier" };
        let next = step(&state);
        let silent = rows((0..128).filter(|&row| state.marks[row] && !next.marks[row]));
        let left = rows((0..128).filter(|&row| next.marks[row]));
        text += &format!("bit {bit}: {carrier}; goes silent:{silent}; still in:{left}\n");
        state = next;
    }
    match state.phase {
        Phase::Finished(row) => text + &format!("row {} wins with priority {}\n", row.0, state.priorities[row.0 as usize].0),
        other => panic!("a start ends with a winner, not {other:?}"),
    }
}

fn replay(bits: u32, priorities: &[Priority]) -> String {
    replay_by(bits, priorities, |state| state.step().expect("a state from a start"))
}

// ---- the cases of the gate ----

struct Case {
    name: String,
    plan: Vec<u8>,
    shown: Vec<u8>,
}

/// Those whose names `is_one` takes.
fn cases_named(is_one: impl Fn(&str) -> bool) -> Vec<Case> {
    let folder = top().join("crates/cases/data");
    let mut plans: Vec<PathBuf> =
        std::fs::read_dir(folder).expect("the cases").map(|entry| entry.expect("a case").path()).collect();
    plans.retain(|path| path.extension().is_some_and(|kind| kind == "plan"));
    plans.sort();
    let case = |path: PathBuf| {
        let name = path.file_stem().expect("a name").to_string_lossy().into_owned();
        is_one(&name).then(|| Case {
            name,
            plan: std::fs::read(&path).expect("a plan file"),
            shown: std::fs::read(path.with_extension("out")).expect("what must be shown of it"),
        })
    };
    plans.into_iter().filter_map(case).collect()
}

/// Those of `waits`; all others are of `listing`.
const OF_WAITS: &str = "waits-";

fn cases() -> Vec<Case> {
    let cases = cases_named(|name| !name.starts_with(OF_WAITS));
    assert!(cases.len() >= 577, "only {} cases", cases.len());
    cases
}

fn cases_of_waits() -> Vec<Case> {
    let cases = cases_named(|name| name.starts_with(OF_WAITS));
    assert!(cases.len() >= 150, "only {} cases of waits", cases.len());
    cases
}

fn lines(bytes: &[u8]) -> String {
    String::from_utf8_lossy(bytes).into_owned()
}

fn on_cases(cases: &[Case], program: &str, wanted: impl Fn(&Case) -> Vec<u8>) {
    for case in cases {
        let (printed, ended) = run(program, &[], &case.plan);
        let wanted = wanted(case);
        assert_eq!(lines(&printed), lines(&wanted), "{program} on {}", case.name);
        assert_eq!(printed, wanted, "{program} on {}", case.name);
        let refused = case.shown.starts_with(b"refused ");
        assert_eq!(ended, if refused { REFUSED } else { ANSWERED }, "{program} on {}", case.name);
    }
}

/// On all cases of the listing: what is refused there is refused here, and of any other `made` is printed.
fn on_all_cases(program: &str, made: impl Fn(&[u8]) -> Vec<u8>) {
    on_cases(&cases(), program, |case| match case.shown.starts_with(b"refused ") {
        true => case.shown.clone(),
        false => made(&case.plan),
    });
}

#[test]
fn listing_on_all_cases() {
    on_cases(&cases(), "listing", |case| case.shown.clone());
}

#[test]
fn refusals_on_all_cases() {
    on_all_cases("refusals", |_| b"fine\n".to_vec());
}

#[test]
fn rewrite_on_all_cases() {
    on_all_cases("rewrite", rewritten);
}

#[test]
fn waits_on_all_cases() {
    on_cases(&cases_of_waits(), "waits", |case| case.shown.clone());
    on_all_cases("waits", |file| waits(file).into_bytes());
}

/// The other programs on the cases of `waits`.
#[test]
fn cases_of_waits_on_the_others() {
    let cases = cases_of_waits();
    on_cases(&cases, "listing", |case| listing(&case.plan).into_bytes());
    on_cases(&cases, "refusals", |case| fine(&case.plan).into_bytes());
    on_cases(&cases, "rewrite", |case| rewritten(&case.plan));
}

/// What is made here of the cases of `waits` is what stands in their files, and they have all kinds. No program is run.
#[test]
fn cases_of_waits_by_the_plain_planner() {
    let mut tally = Tally::default();
    for case in cases_of_waits() {
        assert_eq!(waits(&case.plan), lines(&case.shown), "{}", case.name);
        let Ok(plan) = plain::read(&case.plan) else {
            tally.count("refused");
            continue;
        };
        tally.count(format!("edition {}", case.plan[0]));
        tally.count(if plan.timing[P] > 0 { "in slots" } else { "no master node" });
        tally.count(if plan.gaps.is_empty() { "no noise" } else { "noise" });
        for level in Analysis::new(&plan).levels() {
            let search = level.search();
            tally_limit(&mut tally, search.busy_period, search.evaluations, level.limit(search.busy_period));
        }
    }
    tally.print("cases of waits");
    need_all(&tally, &["refused", "edition 1", "edition 2", "edition 3", "in slots", "no master node", "no noise", "noise"], 5);
    need_all(&tally, &["L: at the limit", "L: one below", "L: further below", "none: further below"], 5);
}

/// Whether a file, if it is not refused, is written back byte for byte.
fn is_as_written(file: &[u8]) -> bool {
    file[0] == 3 && etg_and_lag_of(file)[1] == 0
}

/// What `rewrite` must write of the cases is the case itself just where it should be, and they have all kinds.
#[test]
fn cases_that_are_written_back() {
    let mut tally = Tally::default();
    for case in cases().iter().filter(|case| status(&case.plan) == ANSWERED) {
        let written = rewritten(&case.plan);
        assert_eq!(written == case.plan, is_as_written(&case.plan), "{}", case.name);
        assert!(is_as_written(&written), "{}", case.name);
        let lag = if etg_and_lag_of(&case.plan)[1] > 0 { "a" } else { "no" };
        tally.count(format!("edition {}, {lag} LAG", case.plan[0]));
    }
    tally.print("cases that are not refused");
    for edition in 1..=3 {
        need_all(&tally, &[&format!("edition {edition}, a LAG"), &format!("edition {edition}, no LAG")], 20);
    }
}

// ---- drawn plans, damaged plans, random bytes, pipes ----

fn on_file(file: &[u8], at_once: usize) {
    let wanted = [listing(file).into_bytes(), fine(file).into_bytes(), rewritten(file), waits(file).into_bytes()];
    for (program, wanted) in ON_PLANS.into_iter().zip(wanted) {
        let ran = run_in(&top(), program, &[], file, at_once);
        assert_eq!(ran, (wanted, status(file)), "{program}: {}", common::hex(file));
    }
}

#[test]
fn drawn_and_damaged_plans() {
    let (mut rng, mut tally) = (Rng(0x9406), Tally::default());
    for k in 0..60 {
        let draw = if k % 3 == 0 { common::many_streams } else { common::plan };
        let plan = drawn(&mut rng, draw, &mut tally);
        tally_streams(&mut tally, &plan);
        let mut file = any_file_of(&mut rng, &plan);
        on_file(&file, usize::MAX);
        let at = rng.below(file.len() as u64) as usize;
        file[at] ^= 1 << rng.below(8);
        if plain::read(&file).map_or(true, |plan| is_short(&plan)) {
            on_file(&file, usize::MAX);
        }
    }
    tally.print("drawn plans for the programs");
    need_all(&tally, &MANY, 2);
}

#[test]
fn random_bytes_and_files_of_any_length() {
    let mut rng = Rng(0xb17e5);
    let few = [0, 1, 43, 44, 79, 80, 103, 104, 111, 112, 1_648, 1_652, 1_653, 1_908, 1_909, 4_095, 4_096, 4_097];
    for length in few.into_iter().chain(7_279..=7_288).chain([8_191, 8_192, 8_193, 70_000]) {
        let bytes: Vec<u8> = (0..length).map(|_| rng.next() as u8).collect();
        on_file(&bytes, usize::MAX);
    }
}

#[test]
fn input_that_comes_byte_by_byte() {
    let cases = cases();
    let largest = cases.iter().filter(|case| status(&case.plan) == ANSWERED).max_by_key(|case| case.plan.len()).expect("a plan");
    assert_eq!(largest.plan.len(), LARGEST);
    on_file(&largest.plan, 1);
    on_file(&largest.plan[..LARGEST - 1], 1);
    let one_more = [&largest.plan[..], &[0]].concat();
    on_file(&one_more, 1);
}

/// An example with this ETG and this LAG.
fn with_lag(name: &str, etg: u32, lag: u32) -> Vec<u8> {
    let mut file = std::fs::read(top().join("examples").join(name)).expect("an example");
    file[68..72].copy_from_slice(&etg.to_le_bytes());
    file[72..76].copy_from_slice(&lag.to_le_bytes());
    file
}

/// In each edition: `listing` and `waits` go by ETG and LAG together, one file is written however they are parted, and 11 tells a sum
/// that is too great.
#[test]
fn files_with_a_lag() {
    for name in ["p1.plan", "slots.plan", "acknowledged.plan"] {
        let plain = with_lag(name, 3, 0);
        let [listed, waited, (written, _)] = ["listing", "waits", "rewrite"].map(|program| run(program, &[], &plain));
        assert_eq!((listed.1, waited.1), (ANSWERED, ANSWERED));
        assert_eq!(etg_and_lag_of(&written), [3, 0]);
        for (etg, lag) in [(3, 0), (2, 1), (0, 3)] {
            let file = with_lag(name, etg, lag);
            assert_eq!(run("listing", &[], &file), listed, "{name}, ETG {etg}, LAG {lag}");
            assert_eq!(run("waits", &[], &file), waited, "{name}, ETG {etg}, LAG {lag}");
            assert_eq!(run("rewrite", &[], &file), (written.clone(), ANSWERED), "{name}, ETG {etg}, LAG {lag}");
        }
        assert_eq!(run("rewrite", &[], &written), (written, ANSWERED));
        for (etg, lag, line) in [
            (65_535, 1, "refused 11 at 68\n"),
            (1, 65_535, "refused 11 at 68\n"),
            (65_535, 65_535, "refused 11 at 68\n"),
            (65_536, 65_535, "refused 3 at 68\n"),
            (65_535, 65_536, "refused 3 at 72\n"),
        ] {
            for program in ON_PLANS {
                let ran = run(program, &[], &with_lag(name, etg, lag));
                assert_eq!(ran, (line.as_bytes().to_vec(), REFUSED), "{program} on {name}, ETG {etg}, LAG {lag}");
            }
        }
    }
}

/// Every field but the instance has as many digits as it gets. With an instance of ten digits a row would have 63 bytes, and 256 rows
/// with their header 16,175.
#[test]
fn the_longest_rows() {
    let row = |k: u32| stream(u32::MAX - k, u32::MAX - k, u32::MAX, u32::MAX, 1, 1_000_000_000);
    let mut timing = BASE;
    timing[NB] = 32;
    for streams in [64, 65, 256] {
        let file = file_of(&Plan { timing, streams: (0..streams).map(row).collect(), gaps: vec![] });
        let length = listing(&file).len();
        assert_eq!(length, 47 + streams as usize * (11 + 10 + 10 + 1 + 10 + 6 + 6));
        assert!(length < 16_175);
        on_file(&file, usize::MAX);
    }
}

/// A limit has as many digits as it gets. The evaluations have one, as so many that they have ten would take seconds.
#[test]
fn the_longest_limits() {
    let row = |k: u32| stream(u32::MAX - k, u32::MAX - k, 1, u32::MAX, 1, 1);
    let timing = [0, 0, 0, 0, 0, 0, 0, 0, 32, 0];
    for streams in [1, 64, 65, 256] {
        let file = file_of(&Plan { timing, streams: (0..streams).map(row).collect(), gaps: vec![] });
        assert!(waits(&file).ends_with(" 1 4294967296\n"));
        assert_eq!(waits(&file).len(), 24 + streams as usize * (11 + 2 + 11 + 1));
        on_file(&file, usize::MAX);
    }
}

/// So many streams that hardly ever send, and 8 gaps.
fn crowd(streams: u32, slot: u32) -> Plan {
    let mut timing = BASE;
    [timing[NB], timing[P]] = [9, slot];
    let row = |k: u32| stream(k, k, 4_000_000, 0, 5, 4_000_000);
    Plan { timing, streams: (0..streams).map(row).collect(), gaps: vec![4_000_000; 8] }
}

/// An older file with more streams than it may have is refused whole, and no row of it is shown.
#[test]
fn older_files_of_many_streams() {
    for (edition, slot) in [(Edition::One, 0), (Edition::Two, 60)] {
        on_file(&file_in(edition, &crowd(64, slot)), usize::MAX);
        for streams in [65, 190, 256] {
            let file = file_in(edition, &crowd(streams, slot));
            for program in ON_PLANS {
                assert_eq!(run(program, &[], &file), (b"refused 2 at 0\n".to_vec(), REFUSED), "{program}, {streams} streams");
            }
        }
    }
}

#[test]
fn what_cannot_be_read_is_told_so() {
    build();
    for program in PROGRAMS {
        let folder = std::fs::File::open(top()).expect("a folder");
        let output =
            Command::new(top().join("run")).arg(program).stdin(folder).stderr(Stdio::null()).output().expect("./run starts");
        assert_eq!(lines(&output.stdout), format!("{program}: cannot read standard input\n"));
        assert_eq!(output.status.code(), Some(REFUSED), "{program}");
    }
}

// ---- lighter ----

/// The pairs of the gate: two names a line.
fn pairs() -> Vec<(String, String)> {
    let list = std::fs::read_to_string(top().join("crates/lighter/stdin")).expect("the pairs of the gate");
    let pair = |line: &str| match line.split(' ').collect::<Vec<_>>()[..] {
        [old, new] if !old.is_empty() && !new.is_empty() => Some((old.to_string(), new.to_string())),
        _ => None,
    };
    let pairs: Vec<_> = list.lines().filter_map(pair).collect();
    assert!(pairs.len() >= 57, "only {} pairs", pairs.len());
    pairs
}

#[test]
fn lighter_on_the_pairs_of_the_gate() {
    let folder = top().join("crates/lighter/data");
    let (mut wanted, mut worst, mut list) = (String::new(), 0, String::new());
    for (old, new) in pairs() {
        let (Ok(first), Ok(second)) = (std::fs::read(folder.join(&old)), std::fs::read(folder.join(&new))) else {
            continue;
        };
        let (line, ended) = told(&first, &second);
        assert_eq!(run_in(&folder, "lighter", &[&old, &new], b"", 1), (line.clone().into_bytes(), ended), "{old} {new}");
        list += &format!("{old} {new}\n");
        wanted += &line;
        worst = worst.max(ended);
    }
    assert_eq!(run_in(&folder, "lighter", &[], list.as_bytes(), 7), (wanted.clone().into_bytes(), worst));
    // The last line's newline may be missing, and the answer is there all the same.
    assert_eq!(run_in(&folder, "lighter", &[], list.trim_end().as_bytes(), usize::MAX), (wanted.into_bytes(), worst));
}

/// What is told of pairs of examples.
fn lighter_on(pairs: &[(&str, &str, &str, i32)]) {
    let folder = top().join("examples/lighter");
    for &(old, new, line, ended) in pairs {
        assert_eq!(run_in(&folder, "lighter", &[old, new], b"", 1), (line.as_bytes().to_vec(), ended), "{old} {new}");
    }
}

#[test]
fn lighter_with_a_master_node() {
    let other = "run again: one plan has a master node and the other has none\n";
    lighter_on(&[
        ("slots-desk.plan", "slots-desk.plan", "lighter\n", ANSWERED),
        ("slots-desk.plan", "slots-faster.plan", "lighter\n", ANSWERED),
        ("slots-desk.plan", "slots-slower.plan", "run again: P is greater\n", RUN_AGAIN),
        ("desk.plan", "slots-desk.plan", other, RUN_AGAIN),
        ("slots-desk.plan", "desk.plan", other, RUN_AGAIN),
    ]);
}

#[test]
fn lighter_with_acknowledgements() {
    let longer = "run again: 10.10 has a longer acknowledgement\n";
    lighter_on(&[
        ("desk.plan", "rewritten.plan", "lighter\n", ANSWERED),
        ("rewritten.plan", "desk.plan", "lighter\n", ANSWERED),
        ("acknowledged.plan", "desk.plan", "lighter\n", ANSWERED),
        ("desk.plan", "acknowledged.plan", longer, RUN_AGAIN),
        ("rewritten.plan", "acknowledged.plan", longer, RUN_AGAIN),
    ]);
}

/// LAG is never named: it is a part of ETG.
#[test]
fn lighter_with_etg_and_lag() {
    lighter_on(&[
        ("desk.plan", "etg.plan", "run again: ETG is greater\n", RUN_AGAIN),
        ("etg.plan", "desk.plan", "lighter\n", ANSWERED),
    ]);
    let folder = std::env::temp_dir().join(format!("livnakesh-lags-{}", std::process::id()));
    std::fs::create_dir_all(&folder).expect("a folder of our own");
    let (lighter, greater) = (("lighter\n", ANSWERED), ("run again: ETG is greater\n", RUN_AGAIN));
    let (first, second) = (("first refused 11 at 68\n", REFUSED), ("second refused 11 at 68\n", REFUSED));
    for (old, new) in [("p1.plan", "p1.plan"), ("p1.plan", "p1-rewritten.plan"), ("slots.plan", "slots.plan")] {
        for (etg, lag, there, back) in [
            (2, 1, lighter, lighter),
            (3, 0, lighter, lighter),
            (0, 3, lighter, lighter),
            (2, 0, lighter, greater),
            (0, 2, lighter, greater),
            (2, 2, greater, lighter),
            (4, 0, greater, lighter),
            (0, 4, greater, lighter),
            (1, 65_535, second, first),
        ] {
            std::fs::write(folder.join("old.plan"), with_lag(old, 2, 1)).expect("a plan");
            std::fs::write(folder.join("new.plan"), with_lag(new, etg, lag)).expect("a plan");
            for (names, (line, ended)) in [(["old.plan", "new.plan"], there), (["new.plan", "old.plan"], back)] {
                let ran = run_in(&folder, "lighter", &names, b"", 1);
                assert_eq!(ran, (line.as_bytes().to_vec(), ended), "{old}, and {new} with ETG {etg}, LAG {lag}");
            }
        }
    }
    std::fs::remove_dir_all(folder).expect("it was ours");
}

/// Files of up to 7,284 bytes are read whole, and a longer one is not cut.
#[test]
fn lighter_with_256_streams() {
    let folder = std::env::temp_dir().join(format!("livnakesh-many-{}", std::process::id()));
    std::fs::create_dir_all(&folder).expect("a folder of our own");
    let all = file_of(&crowd(256, 0));
    let mut later = crowd(256, 0);
    later.streams[255].jitter = 1;
    let longer = [&all[..], &[0]].concat();
    for (name, file) in [("all", &all), ("later", &file_of(&later)), ("longer", &longer), ("some", &file_of(&crowd(190, 0)))] {
        std::fs::write(folder.join(name), file).expect("a plan");
    }
    for (old, new, line, ended) in [
        ("all", "all", "lighter\n", ANSWERED),
        ("all", "some", "lighter\n", ANSWERED),
        ("some", "all", "run again: 0.190 is not in the first plan\n", RUN_AGAIN),
        ("all", "later", "run again: 0.255 has a longer jitter\n", RUN_AGAIN),
        ("later", "all", "lighter\n", ANSWERED),
        ("longer", "all", "first refused 1 at 0\n", REFUSED),
        ("all", "longer", "second refused 1 at 0\n", REFUSED),
    ] {
        let [first, second] = [old, new].map(|name| std::fs::read(folder.join(name)).expect("it was written"));
        assert_eq!(told(&first, &second), (line.into(), ended), "{old} {new}");
        assert_eq!(run_in(&folder, "lighter", &[old, new], b"", 1), (line.as_bytes().to_vec(), ended), "{old} {new}");
    }
    std::fs::remove_dir_all(folder).expect("it was ours");
}

/// A name is never cut: a file under the first bytes of another's name is not taken for it.
#[test]
fn names_of_any_length() {
    let folder = std::env::temp_dir().join(format!("livnakesh-names-{}", std::process::id()));
    std::fs::create_dir_all(&folder).expect("a folder of our own");
    let examples = top().join("examples/lighter");
    let name = |length: usize| "n".repeat(length);
    std::fs::copy(examples.join("desk.plan"), folder.join("desk.plan")).expect("the desk's plan");
    for length in [80, 200] {
        let (short, long) = (name(length), name(length + 1));
        std::fs::copy(examples.join("pulled.plan"), folder.join(&short)).expect("a lighter plan");
        std::fs::copy(examples.join("jitter.plan"), folder.join(&long)).expect("a plan that is not");
        let by_list = run_in(&folder, "lighter", &[], format!("desk.plan {long}\n").as_bytes(), usize::MAX);
        assert_eq!(by_list, (b"run again: 11.2 has a longer jitter\n".to_vec(), RUN_AGAIN));
        assert_eq!(run_in(&folder, "lighter", &["desk.plan", &long], b"", 1), by_list);
        std::fs::remove_file(folder.join(long)).expect("it was there");
        let gone = run_in(&folder, "lighter", &[], format!("desk.plan {}\n", name(length + 1)).as_bytes(), usize::MAX);
        assert_eq!(gone, (format!("lighter: cannot read {}\n", name(length + 1)).into_bytes(), REFUSED));
    }
    std::fs::remove_dir_all(folder).expect("it was ours");
}

#[test]
fn a_list_that_is_too_long_or_wrong() {
    let folder = top().join("examples/lighter");
    let pair = "desk.plan pulled.plan\n";
    let (printed, ended) = run_in(&folder, "lighter", &[], pair.repeat(65_536 / pair.len() + 1).as_bytes(), usize::MAX);
    assert_eq!((lines(&printed).lines().count(), ended), (1, REFUSED), "{}", lines(&printed));
    assert!(printed.starts_with(b"lighter: "), "{}", lines(&printed));
    for wrong in
        ["desk.plan\n", "desk.plan pulled.plan pulled.plan\n", "desk.plan  pulled.plan\n", " desk.plan pulled.plan\n", "\n"]
    {
        let (printed, ended) = run_in(&folder, "lighter", &[], format!("{pair}{wrong}{pair}").as_bytes(), usize::MAX);
        let printed = lines(&printed);
        let told: Vec<&str> = printed.lines().collect();
        assert_eq!((told.len(), told[0], told[2], ended), (3, "lighter", "lighter", REFUSED), "{wrong:?}: {printed}");
        assert!(told[1].starts_with("lighter: line 2: "), "{wrong:?}: {printed}");
    }
}

// ---- replay ----

#[test]
fn replays() {
    let (mut rng, mut tally) = (Rng(0x3e91a), Tally::default());
    let (mut list, mut wanted) = (Vec::new(), Vec::new());
    for _ in 0..60 {
        let bits = rng.within(0, 33) as u32;
        let most = if rng.one_in(8) { u32::MAX } else { u32::MAX.checked_shr(32 - bits.min(32)).unwrap_or(0) };
        // priorities that have all but their lowest bits in common part late
        let lowest = if rng.one_in(2) { most.min(rng.pick(&[1, 7, 255])) } else { most };
        let common = rng.wide() & most & !lowest;
        let count = rng.pick(&[0, 1, 2, 3, 5, 20, 128, 129]).min(u64::from(lowest) + 1) as usize;
        let mut priorities: Vec<u32> = rng.distinct(count, lowest).into_iter().map(|low| common | low).collect();
        if rng.one_in(6) && count > 1 {
            priorities[count - 1] = priorities[0];
        }
        let words: Vec<String> = std::iter::once(bits).chain(priorities.iter().copied()).map(|word| word.to_string()).collect();
        let text = replay(bits, &priorities.into_iter().map(Priority).collect::<Vec<_>>());
        let ended = if text.starts_with("refused ") { REFUSED } else { ANSWERED };
        let words: Vec<&str> = words.iter().map(String::as_str).collect();
        assert_eq!(run("replay", &words, b""), (text.clone().into_bytes(), ended), "{words:?}");
        for (bit, line) in (1..=bits).zip(text.lines()) {
            if line.contains("goes silent:") && !line.contains("goes silent: none") {
                tally.count(match bit {
                    1 => "silent at the first bit",
                    _ if bit == bits => "silent at the last bit",
                    _ => "silent between",
                });
            }
        }
        list.push(words.join(" "));
        wanted.push(text);
    }
    let (printed, _) = run_in(&top(), "replay", &[], list.join("\n\n").as_bytes(), 3);
    assert_eq!(lines(&printed), wanted.join("\n"));
    tally.print("replays");
    need_all(&tally, &["silent at the first bit", "silent at the last bit", "silent between"], 10);
}

// ---- the sham programs of document 01 ----

/// Each differs somewhere from what must be printed, so no such program passes the tests above.
#[test]
fn sham_programs_are_seen() {
    let cases = cases();
    let seen = |sham: &dyn Fn(&Case) -> Vec<u8>| cases.iter().any(|case| sham(case) != case.shown);
    // refuses all plans
    assert!(seen(&|_| b"refused 2 at 0\n".to_vec()));
    // prints the same bound for all streams of a plan
    let first_bound = |file: &[u8], words: &mut [u64]| {
        plain::answers(file, words)?;
        let bound = words[1];
        words.chunks_mut(ROW).for_each(|row| row[1] = bound);
        Ok(())
    };
    assert!(seen(&|case| listing_by(&case.plan, first_bound).into_bytes()));
    // of ours: names the first instance, whichever is the latest
    let first_instance = |file: &[u8], words: &mut [u64]| {
        plain::answers(file, words)?;
        words.chunks_mut(ROW).for_each(|row| row[2] = 0);
        Ok(())
    };
    assert!(seen(&|case| listing_by(&case.plan, first_instance).into_bytes()));
    // of ours: names the last of those that are equally late
    let last_instance = |file: &[u8], words: &mut [u64]| {
        plain::answers(file, words)?;
        for level in Analysis::new(&plain::read(file)?).levels() {
            let Some(terms) = terms(&level) else { continue };
            let largest = terms.iter().max();
            let last = (0..terms.len()).rev().find(|&q| terms.get(q) == largest).expect("the largest is one of them");
            words[ROW * level.row + 2] = last as u64;
        }
        Ok(())
    };
    assert!(seen(&|case| listing_by(&case.plan, last_instance).into_bytes()));
    // of ours: leaves the acknowledgements out
    let no_acknowledgements = |file: &[u8], words: &mut [u64]| {
        let mut plan = plain::read(file)?;
        plan.streams.iter_mut().for_each(|s| s.acknowledgement = 0);
        plain::screen(&plan, words)
    };
    assert!(seen(&|case| listing_by(&case.plan, no_acknowledgements).into_bytes()));
    // of ours: leaves LAG out
    let no_lag = |file: &[u8], words: &mut [u64]| {
        let mut plan = plain::read(file)?;
        plan.timing[ETG] -= etg_and_lag_of(file)[1];
        plain::screen(&plan, words)
    };
    assert!(seen(&|case| listing_by(&case.plan, no_lag).into_bytes()));
    // writes no answers
    assert!(seen(&|case| listing_by(&case.plan, |file, _| plain::read(file).map(|_| ())).into_bytes()));
    // prints the same listing, whatever it reads, and copies its input, whatever that is
    assert!(seen(&|_| cases[0].shown.clone()));
    assert!(cases.iter().any(|case| case.plan != rewritten(&case.plan)));
    // a tournament that works at the top bit and then idles: each later bit leaves the marks as they are
    let idles = |state: &Tournament| {
        let next = state.step().expect("a state from a start");
        let marks = if state.phase == Phase::AtBit(1) { next.marks } else { state.marks };
        Tournament { marks, ..next }
    };
    let contenders = [5, 3, 6].map(Priority);
    assert_ne!(replay_by(4, &contenders, idles), replay(4, &contenders));
    // what is made here is what the cases have, so the shams above differ by what they are
    assert!(!seen(&|case| if case.plan.len() <= LARGEST && !case.name.contains("slow") {
        listing(&case.plan).into_bytes()
    } else {
        case.shown.clone()
    }));
}

/// The same for `waits`, all of ours.
#[test]
fn sham_waits_are_seen() {
    let cases = cases_of_waits();
    let seen = |sham: &dyn Fn(&Level) -> (u64, u64)| cases.iter().any(|case| waits_by(&case.plan, sham) != lines(&case.shown));
    let right = evaluations_and_limit;
    // leaves the last evaluation out, always or where there is none
    assert!(seen(&|level| (right(level).0 - 1, right(level).1)));
    assert!(seen(&|level| (right(level).0 - u64::from(level.busy_period().is_none()), right(level).1)));
    // prints the limit for the evaluations
    assert!(seen(&|level| (right(level).1, right(level).1)));
    // a limit that is one less, that goes by the stream's own cost alone, or by the horizon where there is an L
    assert!(seen(&|level| (right(level).0, right(level).1 - 1)));
    assert!(seen(&|level| (right(level).0, level.busy_period().unwrap_or(u64::from(u32::MAX)) / level.own.cost + 1)));
    assert!(seen(&|level| (right(level).0, level.limit(None))));
    assert!(!seen(&right));
}
