//! How the proved check's time grows: with the threads of the class exercise, and with statements, handles and routines.
//!
//!     growth times               a line for each table: family, size, microseconds
//!     growth exercise THREADS    the class exercise's table for so many threads
use std::hint::black_box;
use std::time::Instant;

extern "C" {
    fn station_report_packed(text: *const u8, text_length: usize, out: *mut u8, out_length: usize) -> u64;
    fn station_may_load_text(text: *const u8, text_length: usize) -> bool;
}

type Line = Vec<i64>;

/// A routine: its handles as (kind, origin, start), and its statements.
type Routine = (Vec<[i64; 3]>, Vec<Line>);

/// A table text of these routines.
fn text(cells: i64, locks: i64, routines: &[Routine]) -> Vec<u8> {
    let handles: usize = routines.iter().map(|r| r.0.len()).sum();
    let statements: usize = routines.iter().map(|r| r.1.len()).sum();
    let mut lines: Vec<Line> = vec![vec![1, cells, locks, handles as i64, routines.len() as i64, statements as i64]];
    for (q, r) in routines.iter().enumerate() {
        lines.extend(r.0.iter().map(|h| vec![2, q as i64, h[0], h[1], h[2]]));
    }
    lines.extend(routines.iter().map(|r| vec![3, r.1.len() as i64]));
    lines.extend(routines.iter().flat_map(|r| &r.1).map(|s| [vec![4], s.clone()].concat()));
    let mut out = vec![];
    for l in lines {
        for j in 0..8 {
            out.extend(format!("{:>6}", l.get(j).copied().unwrap_or(0)).bytes());
        }
        out.push(b'\n');
    }
    out
}

/// The class exercise: routine 0 starts `threads` threads of ten statements, each of which counts one cell up under its lock.
fn exercise(threads: usize) -> Vec<u8> {
    let mut main: Vec<Line> = vec![vec![9, 1]; threads];
    main.push(vec![12]);
    // SET, ADD, TAKE, READ, ADD, WRITE, READ, GIVE, SET, RETURN
    let body = vec![vec![3, 1], vec![4, 2], vec![5, 1], vec![1, 0], vec![4, 1], vec![2, 0], vec![1, 0], vec![6, 1], vec![3, 0], vec![12]];
    text(1, 1, &[(vec![], main), (vec![[1, 1, 0], [2, 1, 0]], body)])
}

/// Two routines of `n` statements together: blocks of TAKE, READ, ADD, WRITE, GIVE in a row.
fn in_order(n: usize) -> Vec<u8> {
    let block = [vec![5, 1], vec![1, 0], vec![4, 1], vec![2, 0], vec![6, 1]];
    let mut body: Vec<Line> = (0..n - 3).map(|i| block[i % 5].clone()).collect();
    body.push(vec![12]);
    text(1, 1, &[(vec![], vec![vec![9, 1], vec![12]]), (vec![[1, 1, 0], [2, 1, 0]], body)])
}

/// The same with each second block TAKER, READ, GIVE: a table with both kinds of hold.
fn both_holds(n: usize) -> Vec<u8> {
    let blocks = [vec![5, 1], vec![1, 0], vec![4, 1], vec![2, 0], vec![6, 1], vec![13, 1], vec![1, 0], vec![6, 1]];
    let mut body: Vec<Line> = (0..n - 3).map(|i| blocks[i % 8].clone()).collect();
    body.push(vec![12]);
    text(1, 1, &[(vec![], vec![vec![9, 1], vec![12]]), (vec![[1, 1, 0], [2, 1, 0]], body)])
}

/// Two routines of `n` statements together: blocks of four, each of which jumps to the block above it, from the last block to the
/// first, and the only access at the end of that way. What is known of a statement has to go against the order, block by block.
fn against_order(n: usize) -> Vec<u8> {
    let blocks = (n as i64 - 4) / 4;
    let place = |b: i64| 3 + 4 * b;
    let mut body: Vec<Line> = vec![vec![10, place(blocks - 1)], vec![5, 1], vec![2, 0], vec![6, 1], vec![10, place(blocks)]];
    for b in 1..blocks {
        body.extend([vec![3, 1], vec![4, 1], vec![4, 2], vec![10, place(b - 1)]]);
    }
    body.push(vec![12]);
    text(1, 1, &[(vec![], vec![vec![9, 1], vec![12]]), (vec![[1, 1, 0], [2, 1, 0]], body)])
}

/// 16 routines of 32 statements, each of `each` handles; a handle is pointed to what the next one refers to, and the first one is passed
/// for each parameter of the next routine, which is CALLed or STARTed.
fn by_handles(each: usize) -> Vec<u8> {
    let mut routines: Vec<Routine> = vec![];
    for q in 0..16usize {
        let parameters = if q == 0 { 0 } else { each.min(4) };
        let own = (0..each).map(|k| [1, (k >= parameters) as i64, if k >= parameters { ((q * each + k) % 64) as i64 } else { 0 }]).collect();
        let base = (q * each) as i64;
        let mut body: Vec<Line> = vec![];
        for k in 0..each as i64 - 1 {
            body.push(vec![7, base + k, base + k + 1]);
        }
        for k in 0..each as i64 {
            body.push(vec![1 + k % 2, base + k]);
        }
        if q < 15 {
            let passed: Line = vec![base; each.min(4)];
            body.push([vec![8 + (q % 2) as i64, q as i64 + 1], passed].concat());
        }
        body.resize(31, vec![3, 0]);
        body.push(vec![12]);
        routines.push((own, body));
    }
    text(64, 0, &routines)
}

/// 512 statements in `n` routines; each CALLs the next with its cell and its lock, and routine 0 starts routine 1.
fn by_routines(n: usize) -> Vec<u8> {
    let mut routines: Vec<Routine> = vec![];
    for q in 0..n {
        let local = (q == 0) as i64;
        let base = 2 * q as i64;
        let block = [vec![5, base + 1], vec![1, base], vec![4, 1], vec![2, base], vec![6, base + 1]];
        let mut body: Vec<Line> = vec![];
        if q + 1 < n {
            body.push(vec![8 + local, q as i64 + 1, base, base + 1]);
        }
        let count = 512 / n + (q < 512 % n) as usize;
        while body.len() + 1 < count {
            body.push(block[body.len() % 5].clone());
        }
        body.push(vec![12]);
        routines.push((vec![[1, local, 0], [2, local, 0]], body));
    }
    text(1, 1, &routines)
}

/// The least of many runs of the check, for a quarter of a second, in microseconds.
fn time(text: &[u8]) -> f64 {
    let mut out = vec![0u8; 65536];
    let mut call = || unsafe { station_report_packed(text.as_ptr(), text.len(), out.as_mut_ptr(), out.len()) };
    assert_eq!(call() >> 48, 0, "refused:\n{}", String::from_utf8_lossy(text));
    let (mut least, whole) = (f64::MAX, Instant::now());
    while whole.elapsed().as_secs_f64() < 0.25 {
        let begin = Instant::now();
        black_box(call());
        least = least.min(begin.elapsed().as_secs_f64() * 1e6);
    }
    least
}

fn times() {
    for n in 2..=8 {
        let t = exercise(n);
        assert!(unsafe { station_may_load_text(t.as_ptr(), t.len()) });
        println!("threads {n} {:.2}", time(&t));
    }
    for n in [16, 32, 64, 128, 192, 256, 320, 384, 448, 512] {
        println!("in-order {n} {:.2}", time(&in_order(n)));
        println!("both-holds {n} {:.2}", time(&both_holds(n)));
        println!("against-order {n} {:.2}", time(&against_order(n)));
    }
    for each in 1..=8 {
        println!("handles {} {:.2}", 16 * each, time(&by_handles(each)));
    }
    for n in [1, 2, 4, 8, 12, 16, 20, 24, 28, 32] {
        println!("routines {n} {:.2}", time(&by_routines(n)));
    }
}

fn main() {
    let words: Vec<String> = std::env::args().collect();
    match (words.get(1).map(|w| w.as_str()), words.get(2).and_then(|w| w.parse().ok())) {
        (Some("times"), _) => times(),
        (Some("exercise"), Some(threads)) => print!("{}", String::from_utf8(exercise(threads)).unwrap()),
        _ => panic!("growth times, or growth exercise THREADS"),
    }
}
