//! Holds the static library to an independent reading of the documents, on random texts, schedules and buffer lengths.
//!
//!     judge compare SEED COUNT     COUNT texts, each with a report, a run and the loader's question; one in a hundred adds until its sums stop
//!     judge explore SEED COUNT     every order of steps of COUNT small tables: a clean one never races; by the report now and by that before C-13, and of
//!                                  the tables with a TAKER by themselves; in every state a lock has one writer or readers alone, and beside a thread that
//!                                  holds a common lock of a cell, of any table, no other thread's step touches the cell
//!     judge promela TABLE THREADS  the table as a Promela model with at most THREADS threads
//!     judge models SEED COUNT FOLDER   COUNT small tables that start a thread, and what `explore` says of each, for tests/spin/run
//!     judge lengths TABLE ...      report buffers of every length from 0 to one more than the report needs
//!     judge report TABLE           the report of a table by this reading, or line 50; the library not asked
//!     judge run TABLE SCHEDULE     the answers of a run by this reading in one line and the cells in the next, or line 50; the library not asked
mod document;
mod generate;
mod promela;
use document::{findings, read, report, Findings, State, Table};
use generate::Random;
use std::collections::HashSet;

extern "C" {
    fn station_report_packed(text: *const u8, text_length: usize, out: *mut u8, out_length: usize) -> u64;
    fn station_run_packed(text: *const u8, text_length: usize, schedule: *const u8, schedule_length: usize, answers: *mut u8, answers_length: usize, cells: *mut i32, cells_length: usize) -> u64;
    fn station_may_load_text(text: *const u8, text_length: usize) -> bool;
}

fn packed(number: u32, line: u32, bytes: usize) -> u64 {
    (number as u64) << 48 | (line as u64) << 32 | bytes as u64
}

const GUARD: usize = 16;

/// A buffer of `length` places between guards, all filled with `fill`; `call` gets the part between.
fn guarded<T: Copy + PartialEq + std::fmt::Debug>(length: usize, fill: T, call: impl FnOnce(&mut [T])) -> Vec<T> {
    let mut whole = vec![fill; length + 2 * GUARD];
    call(&mut whole[GUARD..GUARD + length]);
    assert!(whole[..GUARD].iter().chain(&whole[GUARD + length..]).all(|&x| x == fill), "a byte outside the lent buffer changed");
    whole[GUARD..GUARD + length].to_vec()
}

/// The length a buffer is given: mostly enough, sometimes too short.
fn length_near(r: &mut Random, needed: usize) -> usize {
    match r.below(5) {
        0 => r.below(needed + 1),
        1 => needed.saturating_sub(1),
        2 => needed,
        _ => needed + r.below(100),
    }
}

/// A report into a buffer of this length: the answer, which is held to the document, as is every byte.
fn report_into(text: &[u8], want: &Result<Table, (u32, u32)>, bytes: &[u8], length: usize) -> u64 {
    let mut said = 0;
    let out = guarded(length, 0xa5u8, |out| said = unsafe { station_report_packed(text.as_ptr(), text.len(), out.as_mut_ptr(), out.len()) });
    let mut expected = vec![0xa5u8; length];
    let answer = match want {
        Err((number, line)) => packed(*number, *line, 0),
        Ok(_) if length < bytes.len() => packed(13, 0, 0),
        Ok(_) => {
            expected[..bytes.len()].copy_from_slice(bytes);
            packed(0, 0, bytes.len())
        }
    };
    assert_eq!(said, answer, "report's answer on\n{}", String::from_utf8_lossy(text));
    assert_eq!(out, expected, "report's bytes on\n{}", String::from_utf8_lossy(text));
    answer
}

fn compare_report(r: &mut Random, text: &[u8], want: &Result<Table, (u32, u32)>, count: &mut [usize; 14]) {
    let bytes = want.as_ref().map_or(vec![], report);
    let length = length_near(r, bytes.len());
    count[(report_into(text, want, &bytes, length) >> 48) as usize] += 1;
}

/// What runs met: the answers to steps, the cells left at either end of the range, the most frames that a thread had open, and the most readers of a lock.
#[derive(Default)]
struct Met {
    answers: [usize; 19],
    ends: [usize; 2],
    frames: usize,
    readers: usize,
}

/// A run, held to the document: its answer, all answers and all cells.
fn compare_run(r: &mut Random, text: &[u8], schedule: &[u8], want: &Result<Table, (u32, u32)>, met: &mut Met) {
    let cells_needed = want.as_ref().map_or(3, |t| t.cells);
    let (answers_length, cells_length) = (length_near(r, schedule.len()), length_near(r, cells_needed));
    let mut said = 0;
    let mut cells = vec![];
    let answers = guarded(answers_length, 0xa5u8, |answers| {
        cells = guarded(cells_length, 0x5a5a5a5ai32, |cells| {
            said = unsafe { station_run_packed(text.as_ptr(), text.len(), schedule.as_ptr(), schedule.len(), answers.as_mut_ptr(), answers.len(), cells.as_mut_ptr(), cells.len()) }
        });
    });
    let (mut expected, mut expected_cells) = (vec![0xa5u8; answers_length], vec![0x5a5a5a5ai32; cells_length]);
    let answer = match want {
        Err((number, line)) => packed(*number, *line, 0),
        Ok(t) if answers_length < schedule.len() || cells_length < t.cells => packed(13, 0, 0),
        Ok(t) => {
            let mut state = State::start(t);
            for (i, &n) in schedule.iter().enumerate() {
                expected[i] = state.step(t, n as usize, true);
                met.answers[expected[i] as usize] += 1;
                met.frames = state.threads.iter().map(|thread| thread.frames.len()).fold(met.frames, usize::max);
                met.readers = met.readers.max(state.readers());
            }
            expected_cells[..t.cells].copy_from_slice(&state.cells);
            for (end, most) in met.ends.iter_mut().zip([i32::MIN, i32::MAX]) {
                *end += state.cells.iter().filter(|&&value| value == most).count();
            }
            packed(0, 0, 0)
        }
    };
    assert_eq!(said, answer, "run's answer on\n{}", String::from_utf8_lossy(text));
    assert_eq!(answers, expected, "run's answers to {schedule:?} on\n{}", String::from_utf8_lossy(text));
    assert_eq!(cells, expected_cells, "run's cells after {schedule:?} on\n{}", String::from_utf8_lossy(text));
}

fn compare(seed: u64, texts: usize) {
    let mut r = Random(seed * 2 + 88172645463325252);
    let (mut reports, mut met, mut loads, mut several) = ([0; 14], Met::default(), 0, 0);
    let (mut settled, mut most, mut left_out, mut takers, mut kinds) = (0, 0, 0, 0, 0);
    for i in 0..texts {
        let (mut text, schedule) = match i % 100 {
            99 => (generate::sums(&mut r), generate::long_schedule(&mut r)),
            49 => (generate::chain(&mut r), generate::deep_schedule(&mut r)),
            24 | 74 => (generate::helpers_first(&mut r, i % 100 == 74), generate::schedule(&mut r)),
            9 | 59 => (generate::set_up(&mut r), generate::schedule(&mut r)),
            19 | 69 => (generate::guarded(&mut r), generate::schedule(&mut r)),
            _ => (generate::table(&mut r, i % 50 == 0), generate::schedule(&mut r)),
        };
        if r.one_in(3) {
            for _ in 0..1 + r.below(2) {
                generate::damage(&mut r, &mut text);
            }
        }
        let want = read(&text);
        compare_report(&mut r, &text, &want, &mut reports);
        compare_run(&mut r, &text, &schedule, &want, &mut met);
        let may = unsafe { station_may_load_text(text.as_ptr(), text.len()) };
        let found = want.as_ref().ok().map(findings);
        assert_eq!(may, found.as_ref().map_or(false, |f| f.clean()), "the loader's question on\n{}", String::from_utf8_lossy(&text));
        loads += may as usize;
        several += found.as_ref().map_or(false, |f| f.several) as usize;
        settled += found.as_ref().map_or(false, |f| f.helpers_first && f.passes == 3) as usize;
        left_out += found.as_ref().map_or(false, |f| f.common != f.common_of_all) as usize;
        takers += want.as_ref().map_or(false, |t| t.has_taker()) as usize;
        kinds += found.as_ref().map_or(false, |f| f.common != f.common_either) as usize;
        most = found.map_or(0, |f| f.passes).max(most);
    }
    let Met { answers: steps, ends, frames, readers } = met;
    println!("{texts} texts, seed {seed}: refusals 0 to 13 met {reports:?}; answers to steps 0 and 14 to 18 met {} {:?}; cells left at -2147483648 and at 2147483647 {ends:?}; at most {frames} frames open; {several} with an access of several cells; {settled} with helpers first settled by the second pass, at most {most} passes; {left_out} whose common locks C-13 changes; {takers} with a TAKER, {kinds} whose common locks would be others by either hold at a WRITE, at most {readers} readers of a lock at once; {loads} may be loaded", steps[0], &steps[14..]);
    for n in 1..=13 {
        assert!(reports[n] > 0 || texts < 20000, "refusal {n} was never met");
    }
    for n in 14..=18 {
        assert!(steps[n] > 0 || texts < 20000, "step answer {n} was never met");
    }
    assert!(ends[0] > 0 && ends[1] > 0 || texts < 20000, "no sum stopped at an end");
    assert!(settled > 0 && most > 3 || texts < 20000, "no flow sets settled by the second pass");
    assert!(left_out > 0 || texts < 20000, "no common locks without the set-up accesses");
    assert!(several > 0 || texts < 20000, "no statement counted for several cells");
    assert!(frames == 32 || texts < 20000, "no thread had 32 frames open");
    assert!(kinds > 0 && readers > 2 || texts < 20000, "the two kinds of hold made no difference");
}

/// What the states of a table say: whether one is unsafe, whether all were seen, how many, and the most threads and the most readers of a lock in one.
struct Seen {
    race: bool,
    whole: bool,
    states: usize,
    threads: usize,
    readers: usize,
}

/// Threads in a state beyond which the search stops.
const MOST_THREADS: usize = 5;

/// The states that a table reaches, in every order of steps, each shown to `look` once, until it says stop or there are more states or threads than wanted:
/// how many were found, and whether they are all.
fn states(t: &Table, most: usize, mut look: impl FnMut(&State) -> bool) -> (usize, bool) {
    let start = State::start(t);
    let (mut todo, mut seen) = (vec![start.clone()], HashSet::from([start]));
    while let Some(state) = todo.pop() {
        if !look(&state) {
            return (seen.len(), true);
        }
        if state.threads.len() > MOST_THREADS || seen.len() > most {
            return (seen.len(), false);
        }
        for n in 0..state.threads.len() {
            let mut next = state.clone();
            if next.step(t, n, false) == 0 && seen.insert(next.clone()) {
                todo.push(next);
            }
        }
    }
    (seen.len(), true)
}

/// What the states of a table say, up to the first that is unsafe.
fn explore(t: &Table, most: usize) -> Seen {
    let (mut race, mut threads, mut readers) = (false, 1, 0);
    let (states, whole) = states(t, most, |state| {
        threads = threads.max(state.threads.len());
        readers = readers.max(state.readers());
        assert!(state.one_writer_or_readers(), "a lock with a writer and others");
        race = state.unsafe_now(t);
        !race
    });
    Seen { race, whole, states, threads, readers }
}

/// C-22, over all states of tables: how many tables have a thread that holds a common lock beside another one that can step; how many of these are not clean;
/// how many steps beside such a holder were tried, and how many of them in clean tables and for shared cells, as the document has it; and how many tables have a
/// step that touches the cell, by common locks that are not the document's: either hold at a WRITE, or the uncounted accesses in the place of the counted.
#[derive(Default)]
struct Guarded {
    tables: usize,
    flagged: usize,
    steps: usize,
    shared: usize,
    either: usize,
    uncounted: usize,
}

impl Guarded {
    fn add(&mut self, t: &Table, found: &Findings, text: &[u8]) {
        let (mut steps, mut either, mut uncounted) = (0, false, false);
        states(t, 3000, |state| {
            for beside in state.beside_holders(t, &found.common) {
                assert!(!beside.changed, "a step beside the holder of a common lock touches cell {}:\n{}", beside.cell, String::from_utf8_lossy(text));
                steps += beside.steps;
                self.shared += if found.clean() && found.shared[beside.cell] { beside.steps } else { 0 };
            }
            either |= state.beside_holders(t, &found.common_either).iter().any(|beside| beside.changed);
            uncounted |= state.beside_holders(t, &found.common_uncounted).iter().any(|beside| beside.changed);
            true
        });
        self.tables += (steps > 0) as usize;
        self.flagged += (steps > 0 && !found.clean()) as usize;
        self.steps += steps;
        self.either += either as usize;
        self.uncounted += uncounted as usize;
    }

    fn say(&self) {
        let Guarded { tables, flagged, steps, shared, either, uncounted } = self;
        println!("C-22: in {tables} tables, {flagged} of them not clean, a thread holds a common lock of a cell beside one that can step; {steps} such steps, {shared} of them for a shared cell of a clean table, and none touches the cell. By wrong common locks one would: either hold at a WRITE, {either} tables; uncounted accesses in the place of the counted, {uncounted}");
    }
}

/// What was found of the tables by one report: how many are clean, how many of these were seen whole, how many flagged ones were, and how many of those race.
#[derive(Default)]
struct Tally {
    tables: usize,
    clean: usize,
    clean_whole: usize,
    flagged: usize,
    races: usize,
}

impl Tally {
    fn add(&mut self, clean: bool, seen: &Seen) {
        self.tables += 1;
        self.clean += clean as usize;
        self.clean_whole += (clean && seen.whole) as usize;
        self.flagged += (!clean && seen.whole) as usize;
        self.races += (!clean && seen.race) as usize;
    }

    fn say(&self, report: &str) {
        let Tally { tables, clean, clean_whole, flagged, races } = self;
        println!("{report}: {clean} of {tables} clean, none races ({clean_whole} of them seen whole); of {flagged} with a finding and all states seen, {races} race or release a lock not held");
    }
}

fn explore_all(seed: u64, tables: usize) {
    let mut r = Random(seed * 2 + 1181783497276652981);
    let (mut before, mut now, mut takers) = (Tally::default(), Tally::default(), Tally::default());
    let (mut done, mut cut, mut different, mut sharing, mut together, mut guarded) = (0, 0, 0, 0, 0, Guarded::default());
    while done < tables {
        let text = match r.below(4) {
            0 => generate::set_up(&mut r),
            1 => generate::guarded(&mut r),
            _ => generate::table(&mut r, false),
        };
        let Ok(t) = read(&text) else { continue };
        done += 1;
        let (seen, found) = (explore(&t, 3000), findings(&t));
        let may = unsafe { station_may_load_text(text.as_ptr(), text.len()) };
        assert_eq!(may, found.clean(), "the loader's question on\n{}", String::from_utf8_lossy(&text));
        assert!(!(found.clean() && seen.race), "a clean table races:\n{}", String::from_utf8_lossy(&text));
        assert!(found.clean() || !found.clean_before(), "C-13 added a finding:\n{}", String::from_utf8_lossy(&text));
        before.add(found.clean_before(), &seen);
        now.add(found.clean(), &seen);
        if t.has_taker() {
            takers.add(found.clean(), &seen);
            sharing += (found.clean() && found.shared.contains(&true)) as usize;
            together += (found.clean() && seen.readers > 1) as usize;
        }
        different += (found.common != found.common_of_all) as usize;
        guarded.add(&t, &found, &text);
        cut += !seen.whole as usize;
    }
    println!("{tables} tables, every order of steps; {cut} too large to see whole; C-13 changes the report of {different}");
    before.say("before C-13");
    now.say("now");
    takers.say("with a TAKER");
    println!("of the clean ones with a TAKER {sharing} have a shared cell, and {together} two readers of a lock at once");
    guarded.say();
    assert!(guarded.shared > 0 && guarded.flagged > 0 && guarded.either > 0 && guarded.uncounted > 0 || tables < 400, "no reading that could have moved");
    assert!(sharing > 0 && together > 0 || tables < 400, "no clean table with two readers of a lock");
    assert!(now.clean > before.clean || tables < 400, "C-13 made no table clean");
}

/// Small tables that start a thread, as FOLDER/N.table, and a line for each in FOLDER/said: N; race, none, large or threads (not seen whole); states; clean or found by the library.
fn models(seed: u64, tables: usize, folder: &str) {
    let mut r = Random(seed * 2 + 1181783497276652981);
    let (mut done, mut alone, mut takers, mut said) = (0, 0, 0, String::new());
    while done < tables {
        let text = if r.one_in(2) { generate::guarded(&mut r) } else { generate::table(&mut r, false) };
        let Ok(t) = read(&text) else { continue };
        let seen = explore(&t, 20000);
        if seen.whole && seen.threads == 1 && !seen.race {
            alone += 1;
            continue;
        }
        let may = unsafe { station_may_load_text(text.as_ptr(), text.len()) };
        let word = if seen.race { "race" } else if seen.whole { "none" } else if seen.threads > MOST_THREADS { "threads" } else { "large" };
        said += &format!("{done} {word} {} {}\n", seen.states, if may { "clean" } else { "found" });
        std::fs::write(format!("{folder}/{done}.table"), text).expect(folder);
        takers += t.has_taker() as usize;
        done += 1;
    }
    std::fs::write(format!("{folder}/said"), said).expect(folder);
    println!("{tables} tables, seed {seed}, {takers} with a TAKER; {alone} more with one thread and no finding in any state left out");
}

fn lengths(paths: &[String]) {
    let mut calls = 0;
    for path in paths {
        let text = std::fs::read(path).expect(path);
        let want = read(&text);
        let bytes = want.as_ref().map_or(vec![], report);
        for length in 0..=bytes.len() + 1 {
            report_into(&text, &want, &bytes, length);
            calls += 1;
        }
    }
    println!("{} tables, {calls} buffers of every length from 0 to one more than the report needs", paths.len());
}

fn print_refusal((number, line): (u32, u32)) {
    println!("{:>6}{number:>6}{line:>6}{}", 50, "     0".repeat(5));
}

/// A run by this reading alone: its answers in one line, its cells in the next.
fn run(t: &Table, schedule: &[u8]) {
    let mut state = State::start(t);
    let answers: Vec<String> = schedule.iter().map(|&n| state.step(t, n as usize, true).to_string()).collect();
    let cells: Vec<String> = state.cells.iter().map(|value| value.to_string()).collect();
    println!("{}\n{}", answers.join(" "), cells.join(" "));
}

fn main() {
    let words: Vec<String> = std::env::args().collect();
    let number = |i: usize| words.get(i).and_then(|w| w.parse().ok()).expect("judge compare|explore SEED COUNT");
    match words.get(1).map(|w| w.as_str()) {
        Some("compare") => compare(number(2), number(3) as usize),
        Some("explore") => explore_all(number(2), number(3) as usize),
        Some("lengths") => lengths(&words[2..]),
        Some("report") => match read(&std::fs::read(&words[2]).expect(&words[2])) {
            Ok(t) => print!("{}", String::from_utf8_lossy(&report(&t))),
            Err(refusal) => print_refusal(refusal),
        },
        Some("run") => match read(&std::fs::read(&words[2]).expect(&words[2])) {
            Ok(t) => run(&t, &std::fs::read(&words[3]).expect(&words[3])),
            Err(refusal) => print_refusal(refusal),
        },
        Some("promela") => {
            let text = std::fs::read(&words[2]).expect(&words[2]);
            print!("{}", promela::model(&read(&text).expect("an accepted table"), number(3) as usize));
        }
        Some("models") => models(number(2), number(3) as usize, &words[4]),
        _ => panic!("judge compare|explore SEED COUNT, lengths TABLE ..., report TABLE, run TABLE SCHEDULE, promela TABLE THREADS, or models SEED COUNT FOLDER"),
    }
}
