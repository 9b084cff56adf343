//! The proved check and engine against plain ones in Rust, in one run: microseconds a call, nanoseconds a step, ratios.
//!
//!     bench-check TABLE ..          proved against plain on each table, then the engine's steps
//!     bench-check phases TABLE ..   where the plain check's time goes on each table
//!     bench-check proved|plain TABLE   the one check a hundred times and nothing else, for counts of instructions (bench/check/phases)
#[path = "../plain.rs"]
mod plain;
use std::hint::black_box;
use std::time::Instant;

extern "C" {
    fn station_report_packed(text: *const u8, text_length: usize, out: *mut u8, out_length: usize) -> u64;
    fn station_run_packed(text: *const u8, text_length: usize, schedule: *const u8, schedule_length: usize, answers: *mut u8, answers_length: usize, cells: *mut i32, cells_length: usize) -> u64;
}

fn proved(text: &[u8], out: &mut [u8]) -> u64 {
    unsafe { station_report_packed(text.as_ptr(), text.len(), out.as_mut_ptr(), out.len()) }
}

fn timed(turns: usize, f: &mut impl FnMut()) -> f64 {
    let begin = Instant::now();
    for _ in 0..turns {
        f();
    }
    begin.elapsed().as_secs_f64() * 1e6 / turns as f64
}

// The least of many short runs of the one and of the other, taken in turn, in microseconds a call.
fn best(mut f: impl FnMut(), mut g: impl FnMut()) -> (f64, f64) {
    let mut least = (f64::MAX, f64::MAX);
    let (turns, other) = ((60.0 / timed(3, &mut f)) as usize + 1, (60.0 / timed(3, &mut g)) as usize + 1);
    for _ in 0..100 {
        least = (least.0.min(timed(turns, &mut f)), least.1.min(timed(other, &mut g)));
    }
    least
}

fn check(path: &str, ratios: &mut Vec<f64>, large: &mut Vec<(usize, f64, String)>) {
    let text = std::fs::read(path).expect(path);
    let (mut a, mut b) = (vec![0u8; 65536], vec![0u8; 65536]);
    let packed = proved(&text, &mut a);
    let (number, line, bytes) = plain::report(&text, &mut b);
    assert_eq!(packed, (number as u64) << 48 | (line as u64) << 32 | bytes as u64, "{path}");
    assert!(a == b, "{path}: proved and plain print different bytes");
    let one = || {
        black_box(proved(&text, &mut a));
    };
    let other = || {
        black_box(plain::report(&text, &mut b));
    };
    let (proved, plainly) = best(one, other);
    let name = path.rsplit('/').next().unwrap();
    println!("check {name}: {} bytes, proved {proved:.2} us, plain Rust {plainly:.2} us, ratio {:.2}", text.len(), proved / plainly);
    ratios.push(proved / plainly);
    large.push((text.len(), proved, name.to_string()));
}

/// The least time of each phase of the plain check, in microseconds: the clock's own time is taken off.
fn phases(path: &str) {
    let text = std::fs::read(path).expect(path);
    let mut out = vec![0u8; 65536];
    let mut least: Vec<(&str, f64)> = vec![];
    let clock = (0..2000).map(|_| Instant::now().elapsed().as_secs_f64()).fold(f64::MAX, f64::min);
    for _ in 0..3000 {
        let (mut k, mut begin) = (0, Instant::now());
        black_box(plain::report_in_phases(&text, &mut out, |name| {
            let took = (begin.elapsed().as_secs_f64() - clock).max(0.0) * 1e6;
            match least.get_mut(k) {
                Some(phase) => phase.1 = phase.1.min(took),
                None => least.push((name, took)),
            }
            k += 1;
            begin = Instant::now();
        }));
    }
    let (all, name) = (least.iter().map(|p| p.1).sum::<f64>(), path.rsplit('/').next().unwrap());
    if least.is_empty() {
        return println!("phases, plain, {name}: refused");
    }
    print!("phases, plain, {name}: {all:.1} us");
    for (name, took) in &least {
        print!("; {name} {took:.2} ({:.0}%)", 100.0 * took / all);
    }
    println!();
}

/// A table text: header, handles (routine, kind, origin, start), routines (statements each), statements (operation and operands).
fn table(cells: i32, locks: i32, handles: &[[i32; 4]], routines: &[i32], statements: &[&[i32]]) -> Vec<u8> {
    let mut text = String::new();
    let mut line = |numbers: &[i32]| {
        for k in 0..8 {
            text += &format!("{:6}", numbers.get(k).unwrap_or(&0));
        }
        text.push('\n');
    };
    line(&[1, cells, locks, handles.len() as i32, routines.len() as i32, statements.len() as i32]);
    handles.iter().for_each(|h| line(&[2, h[0], h[1], h[2], h[3]]));
    routines.iter().for_each(|&n| line(&[3, n]));
    statements.iter().for_each(|s| line(&[&[4], *s].concat()));
    text.into_bytes()
}

/// Tables that go on for ever, one for each kind of step, and how many threads a schedule names.
fn kinds() -> Vec<(&'static str, Vec<u8>, u8)> {
    let mut chain: Vec<Vec<i32>> = vec![vec![8, 1], vec![10, 0]];
    (1..31).for_each(|r| chain.extend([vec![8, r + 1], vec![12]]));
    chain.push(vec![12]);
    let mut counts = vec![2; 31];
    counts.push(1);
    let chain: Vec<&[i32]> = chain.iter().map(|s| &s[..]).collect();
    let worker: [&[i32]; 6] = [&[5, 2], &[1, 1], &[4, 1], &[2, 1], &[6, 2], &[10, 4]];
    let locked = [&[[9, 1].as_slice(), &[9, 1], &[9, 1], &[12]], worker.as_slice()].concat();
    let reader: [&[i32]; 4] = [&[13, 2], &[1, 1], &[6, 2], &[10, 4]];
    let read = [&[[9, 1].as_slice(), &[9, 1], &[9, 1], &[12]], reader.as_slice()].concat();
    vec![
        ("sums and jumps", table(1, 0, &[], &[6], &[&[3, 5], &[4, 7], &[4, -12], &[11, 5], &[12], &[10, 0]]), 1),
        ("reads and writes", table(2, 0, &[[0, 1, 1, 0], [0, 1, 1, 1]], &[6], &[&[1, 0], &[4, 1], &[2, 0], &[1, 1], &[2, 1], &[10, 0]]), 1),
        ("locks, four threads", table(1, 1, &[[0, 1, 1, 0], [1, 1, 1, 0], [1, 2, 1, 0]], &[4, 6], &locked), 4),
        ("locks held for reading, four threads", table(1, 1, &[[0, 1, 1, 0], [1, 1, 1, 0], [1, 2, 1, 0]], &[4, 4], &read), 4),
        ("calls with four arguments", table(4, 0, &[[0, 1, 1, 0], [0, 1, 1, 1], [0, 1, 1, 2], [0, 1, 1, 3], [1, 1, 0, 0], [1, 1, 0, 0], [1, 1, 0, 0], [1, 1, 0, 0]], &[2, 3], &[&[8, 1, 0, 1, 2, 3], &[10, 0], &[1, 4], &[2, 7], &[12]]), 1),
        ("points", table(2, 0, &[[0, 1, 1, 0], [0, 1, 1, 1]], &[3], &[&[7, 0, 1], &[7, 1, 0], &[10, 0]]), 1),
        ("starts, refused from the sixteenth on", table(1, 0, &[], &[2, 1], &[&[9, 1], &[10, 0], &[12]]), 16),
        ("calls 31 deep", table(1, 0, &[], &counts, &chain), 1),
    ]
}

fn steps(name: &str, text: &[u8], threads: u8, ratios: &mut Vec<f64>) {
    let length = 100_000;
    let mut state = 12345u64;
    let schedule: Vec<u8> = (0..length)
        .map(|_| {
            state = state.wrapping_mul(6364136223846793005).wrapping_add(1442695040888963407);
            (state >> 56) as u8 % threads
        })
        .collect();
    let (mut a, mut b) = (vec![0u8; length], vec![0u8; length]);
    let (mut c, mut d) = ([0i32; 64], [0i32; 64]);
    let one = |n: usize, a: &mut [u8], c: &mut [i32]| unsafe {
        black_box(station_run_packed(text.as_ptr(), text.len(), schedule.as_ptr(), n, a.as_mut_ptr(), a.len(), c.as_mut_ptr(), c.len()))
    };
    let packed = one(length, &mut a, &mut c);
    let (number, line) = plain::run(text, &schedule, &mut b, &mut d);
    assert_eq!(packed, (number as u64) << 48 | (line as u64) << 32, "{name}");
    assert!(a == b && c == d, "{name}");
    let ran = a.iter().filter(|&&x| x == 0).count();
    let mut both = |n: usize| {
        let proved = || {
            one(n, &mut a, &mut c);
        };
        let plain = || {
            black_box(plain::run(text, &schedule[..n], &mut b, &mut d));
        };
        best(proved, plain)
    };
    let (setup, plain_setup) = both(0);
    let (whole, plain_whole) = both(length);
    let (step, plain_step) = ((whole - setup) * 1e3 / length as f64, (plain_whole - plain_setup) * 1e3 / length as f64);
    println!("steps, {name}: {ran} of {length} ran; set-up {setup:.2} us, plain {plain_setup:.2} us; a step {step:.2} ns, plain Rust {plain_step:.2} ns, ratio {:.2}", step / plain_step);
    ratios.push(step / plain_step);
}

fn summary(name: &str, mut ratios: Vec<f64>) {
    ratios.sort_by(|a, b| a.partial_cmp(b).unwrap());
    if let Some(worst) = ratios.last() {
        println!("{name}: median ratio {:.2}, worst {worst:.2}", ratios[ratios.len() / 2]);
    }
}

// No accepted large table should take over three times the median one of its length.
fn evenness(mut large: Vec<(usize, f64, String)>) {
    large.retain(|t| t.0 == 32977);
    large.sort_by(|a, b| a.1.partial_cmp(&b.1).unwrap());
    if let (Some(median), Some(most)) = (large.get(large.len() / 2), large.last()) {
        println!("check, {} tables of 32977 bytes: median {:.1} us, most {:.1} us ({}), {:.2} times the median", large.len(), median.1, most.1, most.2, most.1 / median.1);
    }
}

/// One check a hundred times.
fn repeat(which: &str, path: &str) {
    let text = std::fs::read(path).expect(path);
    let mut out = vec![0u8; 65536];
    for _ in 0..100 {
        if which == "proved" {
            black_box(proved(&text, &mut out));
        } else {
            black_box(plain::report(&text, &mut out));
        }
    }
}

fn main() {
    let words: Vec<String> = std::env::args().skip(1).collect();
    match words.first().map(|w| w.as_str()) {
        Some("phases") => return words[1..].iter().for_each(|path| phases(path)),
        Some(which @ ("proved" | "plain")) => return repeat(which, &words[1]),
        _ => {}
    }
    let (mut checks, mut large, mut runs) = (vec![], vec![], vec![]);
    for path in &words {
        check(path, &mut checks, &mut large);
    }
    for (name, text, threads) in kinds() {
        steps(name, &text, threads, &mut runs);
    }
    summary("check", checks);
    evenness(large);
    summary("steps", runs);
}
