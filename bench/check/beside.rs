//! The check of two builds of the library in one run: microseconds a call on each table, before and after, and the ratio, the least first.
//!
//!     bench-beside TABLE ..     each figure is the least of many short runs, the two in turn, in five rounds over all tables; a table whose report is another
//!                               one in the two builds is marked
use std::hint::black_box;
use std::time::Instant;

type Report = unsafe extern "C" fn(*const u8, usize, *mut u8, usize) -> u64;

extern "C" {
    fn before_report_packed(text: *const u8, text_length: usize, out: *mut u8, out_length: usize) -> u64;
    fn after_report_packed(text: *const u8, text_length: usize, out: *mut u8, out_length: usize) -> u64;
}

fn call(report: Report, text: &[u8], out: &mut [u8]) -> u64 {
    unsafe { black_box(report(text.as_ptr(), text.len(), out.as_mut_ptr(), out.len())) }
}

fn timed(turns: usize, report: Report, text: &[u8], out: &mut [u8]) -> f64 {
    let begin = Instant::now();
    for _ in 0..turns {
        call(report, text, out);
    }
    begin.elapsed().as_secs_f64() * 1e6 / turns as f64
}

fn main() {
    let names: Vec<String> = std::env::args().skip(1).collect();
    let texts: Vec<Vec<u8>> = names.iter().map(|name| std::fs::read(name).expect(name)).collect();
    let both: [Report; 2] = [before_report_packed, after_report_packed];
    let mut out = [vec![0u8; 65536], vec![0u8; 65536]];
    let mut least = vec![[f64::MAX; 2]; texts.len()];
    let mut other = vec![false; texts.len()];
    for _ in 0..5 {
        for ((text, least), other) in texts.iter().zip(&mut least).zip(&mut other) {
            out.iter_mut().for_each(|o| o.fill(0));
            let said: Vec<u64> = (0..2).map(|k| call(both[k], text, &mut out[k])).collect();
            *other = said[0] != said[1] || out[0] != out[1];
            let turns = (60.0 / timed(3, both[0], text, &mut out[0])) as usize + 1;
            for _ in 0..40 {
                (0..2).for_each(|k| least[k] = least[k].min(timed(turns, both[k], text, &mut out[k])));
            }
        }
    }
    let mut rows: Vec<(f64, usize)> = least.iter().map(|t| t[1] / t[0]).zip(0..).collect();
    rows.sort_by(|a, b| a.partial_cmp(b).unwrap());
    for &(ratio, i) in &rows {
        let mark = if other[i] { ", another report" } else { "" };
        println!("{ratio:.2} {}: {} bytes, {:.2} us before, {:.2} after{mark}", names[i].rsplit('/').next().unwrap(), texts[i].len(), least[i][0], least[i][1]);
    }
    println!("{} tables, {} with another report: median {:.3}; all of them together {:.1} us before, {:.1} after", rows.len(), other.iter().filter(|&&o| o).count(), rows[rows.len() / 2].0, least.iter().map(|t| t[0]).sum::<f64>(), least.iter().map(|t| t[1]).sum::<f64>());
}
