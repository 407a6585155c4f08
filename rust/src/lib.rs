//! The proved planner, safe to call from Rust. An answer can take minutes: see the README, "How long it takes".

/// What is painted on the node.
#[derive(Clone, Copy, Debug, PartialEq, Eq, PartialOrd, Ord)]
#[repr(transparent)]
pub struct Label(pub u32);

/// What decides a tournament; the smaller number is the more urgent one.
#[derive(Clone, Copy, Debug, PartialEq, Eq, PartialOrd, Ord)]
#[repr(transparent)]
pub struct Priority(pub u32);

/// A place, counted from 0.
#[derive(Clone, Copy, Debug, PartialEq, Eq, PartialOrd, Ord)]
pub struct Row(pub u32);

/// A stream's seven words in the file's order, and in C's layout. A stream that waits for none has an acknowledgement of 0.
#[derive(Clone, Copy, Debug, PartialEq, Eq)]
#[repr(C)]
pub struct Stream {
    pub label: Label,
    pub priority: Priority,
    pub period: u32,
    pub jitter: u32,
    pub payload: u32,
    pub deadline: u32,
    pub acknowledgement: u32,
}

/// The number and place of the refusals of documents 01 and 02.
#[derive(Clone, Copy, Debug, PartialEq, Eq)]
pub struct Refused {
    pub number: u64,
    pub place: u64,
}

/// What a row's first three words say: a bound that is at most the deadline, one that is above it, or none.
///
/// The instance says which message of a burst, counted from 0, is the latest; the first of those that are equally late.
#[derive(Clone, Copy, Debug, PartialEq, Eq)]
pub enum Answer {
    Met { bound: u64, instance: u64 },
    Missed { bound: u64, instance: u64 },
    None,
}

/// A row's answer, and what the search for its busy period L took.
///
/// The evaluations are the steps from 1 on, by the right side of L, to a value that repeats or to the first beyond 4,294,967,295, the
/// last one included. They are at most floor(X / c) + 1: c is the smallest C'' among the stream and the more urgent ones, or P with a
/// master node, and X is L, or 4,294,967,295 for none.
#[derive(Clone, Copy, Debug, PartialEq, Eq)]
pub struct Searched {
    pub answer: Answer,
    pub evaluations: u64,
}

/// Why a plan is not lighter: the stream by its label, a constant by its place in the file's order (0 is F, 9 is P), noise by the gap.
/// LAG, 7, is never the one: it is added to ETG, and a greater LAG is a greater ETG.
#[derive(Clone, Copy, Debug, PartialEq, Eq)]
pub enum Reason {
    /// One plan has a master node and the other has none.
    MasterNode,
    GreaterConstant(usize),
    NewLabel(Label),
    ShorterPeriod(Label),
    LongerJitter(Label),
    LongerPayload(Label),
    ShorterDeadline(Label),
    LongerAcknowledgement(Label),
    LessUrgent(Label),
    MoreNoise(u32),
}

#[derive(Clone, Copy, Debug, PartialEq, Eq)]
pub enum Compared {
    Lighter,
    FirstRefused(Refused),
    SecondRefused(Refused),
    RunAgain(Reason),
}

/// Where a tournament is: at a bit with its number, finished with the winner's row, or finished without one.
#[derive(Clone, Copy, Debug, PartialEq, Eq)]
pub enum Phase {
    AtBit(u32),
    Finished(Row),
    NoWinner,
}

/// A tournament after a call. A refused step has the phase that it was given, and a refused start no winner.
#[derive(Clone, Copy, Debug, PartialEq, Eq)]
pub struct Outcome {
    pub answer: Result<(), Refused>,
    pub phase: Phase,
}

#[repr(C)]
struct Said {
    refusal: u64,
    value: u64,
}

#[repr(C)]
struct Weighed {
    answer: u64,
    number: u64,
    value: u64,
}

#[repr(C)]
struct Stepped {
    refusal: u64,
    place: u64,
    phase: u64,
    at: u64,
}

extern "C" {
    fn livnakesh_answers(file: *const u8, file_length: usize, words: *mut u64, word_count: usize) -> Said;
    fn livnakesh_rewrite(file: *const u8, file_length: usize, buffer: *mut u8, buffer_length: usize) -> Said;
    fn livnakesh_write(
        streams: usize,
        gaps: usize,
        values: *const u32,
        value_count: usize,
        buffer: *mut u8,
        buffer_length: usize,
    ) -> Said;
    fn livnakesh_screen(
        streams: *const Stream,
        stream_count: usize,
        timing: *const u32,
        timing_count: usize,
        gaps: *const u32,
        gap_count: usize,
        words: *mut u64,
        word_count: usize,
    ) -> Said;
    fn livnakesh_parting(bits: u32, first: Priority, second: Priority) -> Said;
    fn livnakesh_lighter(first: *const u8, first_length: usize, second: *const u8, second_length: usize) -> Weighed;
    fn livnakesh_start(
        bits: u32,
        priorities: *const Priority,
        priority_count: usize,
        marks: *mut u8,
        mark_count: usize,
    ) -> Stepped;
    fn livnakesh_step(
        bits: u32,
        phase: u32,
        at: u32,
        priorities: *const Priority,
        priority_count: usize,
        marks: *mut u8,
        mark_count: usize,
    ) -> Stepped;
}

#[inline]
fn said(said: Said) -> Result<u64, Refused> {
    match said.refusal {
        0 => Ok(said.value),
        number => Err(Refused { number, place: said.value }),
    }
}

/// The words of a row: its verdict, its bound, the instance that gives it, and the evaluations in the search for L.
const ROW: usize = 4;

/// The rows of the largest plan.
const MOST_ROWS: usize = 256;

/// The fewest bytes that a row has in a file, those of editions 1 and 2.
const RECORD: usize = 24;

/// No verdict has this number, so a word that still has it was not written.
const UNWRITTEN: u64 = u64::MAX;

/// The answers of a plan file's streams, in file order, each with its evaluations.
pub fn answers(file: &[u8]) -> Result<Vec<Searched>, Refused> {
    let mut words = room(file.len() / RECORD);
    answer_words(file, &mut words)?;
    Ok(rows(&words))
}

/// As `answers`, of records. The timing is the first ten words, F to NB and P. One that is not lent is 0, so nine words are a plan
/// without a master node. A LAG is added to ETG; where the two are too great together it is refused 11.
pub fn screen(streams: &[Stream], timing: &[u32], gaps: &[u32]) -> Result<Vec<Searched>, Refused> {
    let mut words = room(streams.len());
    screen_words(streams, timing, gaps, &mut words)?;
    Ok(rows(&words))
}

/// Words for so many rows, and for no more than a plan has. Those of the largest plan would show in the time of a small one.
fn room(rows: usize) -> Vec<u64> {
    vec![UNWRITTEN; ROW * rows.min(MOST_ROWS)]
}

/// The rows that were written, which come first.
fn rows(words: &[u64]) -> Vec<Searched> {
    let written = words.chunks_exact(ROW).take_while(|row| row[0] != UNWRITTEN);
    written.map(|row| Searched { answer: answer(row), evaluations: row[3] }).collect()
}

fn answer(row: &[u64]) -> Answer {
    match row[0] {
        0 => Answer::Met { bound: row[1], instance: row[2] },
        1 => Answer::Missed { bound: row[1], instance: row[2] },
        2 => Answer::None,
        other => panic!("the library's contract has no verdict {other}"),
    }
}

/// As `answers`, in lent memory: four words a row, the verdict (0 met, 1 missed, 2 none), the bound and the instance that gives
/// it, both 0 for none, and the evaluations. The words after them stay as found; with fewer words it is refused 6.
pub fn answer_words(file: &[u8], words: &mut [u64]) -> Result<(), Refused> {
    // SAFETY: both slices outlive the call, and the library stays within them.
    said(unsafe { livnakesh_answers(file.as_ptr(), file.len(), words.as_mut_ptr(), words.len()) }).map(|_| ())
}

/// Reads a file's plan, of any edition, and writes its file of edition 3 at the start of `buffer`; hands back how many bytes it
/// wrote. A LAG is added to ETG, so the bytes are those of the file if it is of edition 3 and has a LAG of 0.
pub fn rewrite(file: &[u8], buffer: &mut [u8]) -> Result<usize, Refused> {
    // SAFETY: both slices outlive the call, and the library stays within them.
    said(unsafe { livnakesh_rewrite(file.as_ptr(), file.len(), buffer.as_mut_ptr(), buffer.len()) }).map(|n| n as usize)
}

/// Writes the file, of edition 3, of so many streams and gaps at the start of `buffer`; hands back how many bytes it wrote.
///
/// `values` are the ten timing words, seven words a stream and then the gaps. A word that is not lent is 0. The tenth is P, and 0 in
/// a plan without a master node. The eighth, LAG, is added to ETG, and written as 0.
pub fn write(streams: usize, gaps: usize, values: &[u32], buffer: &mut [u8]) -> Result<usize, Refused> {
    // SAFETY: both slices outlive the call, and the library stays within them.
    said(unsafe { livnakesh_write(streams, gaps, values.as_ptr(), values.len(), buffer.as_mut_ptr(), buffer.len()) })
        .map(|n| n as usize)
}

/// As `screen`, in lent memory: four words a row, as in `answer_words`.
pub fn screen_words(streams: &[Stream], timing: &[u32], gaps: &[u32], words: &mut [u64]) -> Result<(), Refused> {
    // SAFETY: the slices outlive the call, the library stays within them, and a stream is in C's layout.
    let answered = unsafe {
        livnakesh_screen(
            streams.as_ptr(),
            streams.len(),
            timing.as_ptr(),
            timing.len(),
            gaps.as_ptr(),
            gaps.len(),
            words.as_mut_ptr(),
            words.len(),
        )
    };
    said(answered).map(|_| ())
}

/// The bit, counted from 1 at the top, at which two priorities part.
// Numbers alone go over the boundary: inlined, it is one call and not two.
#[inline]
pub fn parting(bits: u32, first: Priority, second: Priority) -> Result<u32, Refused> {
    // SAFETY: numbers alone go in and out, and a priority is laid out as its number.
    said(unsafe { livnakesh_parting(bits, first, second) }).map(word)
}

/// A number that the contract has within 32 bits.
#[inline]
fn word(value: u64) -> u32 {
    u32::try_from(value).expect("the library's contract has 32 bits here")
}

/// Whether the second file's plan is lighter than the first's.
pub fn lighter(first: &[u8], second: &[u8]) -> Compared {
    // SAFETY: both slices outlive the call, and the library only reads them.
    let weighed = unsafe { livnakesh_lighter(first.as_ptr(), first.len(), second.as_ptr(), second.len()) };
    let refused = Refused { number: weighed.number, place: weighed.value };
    match weighed.answer {
        0 => Compared::Lighter,
        1 => Compared::FirstRefused(refused),
        2 => Compared::SecondRefused(refused),
        3 => Compared::RunAgain(reason(weighed.number, weighed.value)),
        other => panic!("the library's contract has no answer {other}"),
    }
}

fn reason(condition: u64, value: u64) -> Reason {
    let label = Label(word(value));
    match condition {
        1 => Reason::GreaterConstant(value as usize),
        2 => Reason::NewLabel(label),
        3 => Reason::ShorterPeriod(label),
        4 => Reason::LongerJitter(label),
        5 => Reason::LongerPayload(label),
        6 => Reason::ShorterDeadline(label),
        7 => Reason::LessUrgent(label),
        8 => Reason::MoreNoise(word(value)),
        9 => Reason::MasterNode,
        10 => Reason::LongerAcknowledgement(label),
        other => panic!("the library's contract has no condition {other}"),
    }
}

/// A tournament at its first bit, with all contenders marked in: as many as there are priorities.
///
/// Each contender's mark becomes 1, and those after them 0 up to the 128th; what stood there is not looked at. The bytes after the
/// 128th stay as found. With fewer marks than priorities the start is refused 6. A refused start leaves the marks as found.
pub fn start(bits: u32, priorities: &[Priority], marks: &mut [u8]) -> Outcome {
    // SAFETY: both slices outlive the call, the library stays within them, and a priority is laid out as its number.
    outcome(unsafe { livnakesh_start(bits, priorities.as_ptr(), priorities.len(), marks.as_mut_ptr(), marks.len()) })
}

/// A tournament one bit later, from a state of any making, of as many contenders as there are priorities.
///
/// A mark is in if its byte is not 0. That of a contender which goes out becomes 0, and every other byte stays as found. With fewer
/// marks than priorities the step is refused 6. A refused step leaves the marks as found.
pub fn step(bits: u32, phase: Phase, priorities: &[Priority], marks: &mut [u8]) -> Outcome {
    let (phase, at) = match phase {
        Phase::AtBit(bit) => (0, bit),
        Phase::Finished(row) => (1, row.0),
        Phase::NoWinner => (2, 0),
    };
    // SAFETY: both slices outlive the call, the library stays within them, and a priority is laid out as its number.
    outcome(unsafe { livnakesh_step(bits, phase, at, priorities.as_ptr(), priorities.len(), marks.as_mut_ptr(), marks.len()) })
}

fn outcome(stepped: Stepped) -> Outcome {
    let at = word(stepped.at);
    let phase = match stepped.phase {
        0 => Phase::AtBit(at),
        1 => Phase::Finished(Row(at)),
        2 => Phase::NoWinner,
        other => panic!("the library's contract has no phase {other}"),
    };
    Outcome { answer: said(Said { refusal: stepped.refusal, value: stepped.place }).map(|_| ()), phase }
}
