//! Holds the plain check and engine of the benchmarks (bench/plain.rs) to the judge's reading of the documents (tests/judge), on random texts, accepted and
//! damaged, and on the tables named: the same answer and the same bytes, with buffers that are long enough and too short.
//!
//!     agree SEED COUNT TABLE ..
#[path = "../../tests/judge/document.rs"]
#[allow(dead_code)]
mod document;
#[path = "../../tests/judge/generate.rs"]
#[allow(dead_code)]
mod generate;
#[path = "../plain.rs"]
mod plain;
use generate::Random;

/// Compares on one text, with a report buffer that `short` of the needed bytes lack: the answer's number.
fn compare(text: &[u8], short: usize) -> usize {
    let want = document::read(text);
    let bytes = want.as_ref().map_or(vec![], document::report);
    let length = bytes.len().saturating_sub(short) + if short == 0 { 3 } else { 0 };
    let (mut out, mut expected) = (vec![0xa5; length], vec![0xa5; length]);
    let answer = match &want {
        Err((number, line)) => (*number, *line, 0),
        Ok(_) if length < bytes.len() => (13, 0, 0),
        Ok(_) => {
            expected[..bytes.len()].copy_from_slice(&bytes);
            (0, 0, bytes.len())
        }
    };
    let said = plain::report(text, &mut out);
    if said != answer || out != expected {
        print!("{}", String::from_utf8_lossy(text));
        println!("plain says {said:?}:\n{}the document {answer:?}:\n{}", String::from_utf8_lossy(&out), String::from_utf8_lossy(&expected));
        std::process::exit(1);
    }
    answer.0 as usize
}

/// The engine's steps on one text, a short schedule.
fn compare_run(text: &[u8], schedule: &[u8]) {
    let Ok(t) = document::read(text) else { return };
    let mut state = document::State::start(&t);
    let expected: Vec<u8> = schedule.iter().map(|&n| state.step(&t, n as usize, true)).collect();
    let (mut answers, mut cells) = (vec![0; schedule.len()], vec![0; t.cells]);
    assert_eq!(plain::run(text, schedule, &mut answers, &mut cells), (0, 0));
    assert!(answers == expected && cells == state.cells, "steps {schedule:?} on\n{}", String::from_utf8_lossy(text));
}

/// Jumps of an accepted text that go elsewhere in their routine, and CALLs that are STARTs: more ways round than the generator makes.
fn stir(r: &mut Random, text: &mut [u8]) {
    let Ok(t) = document::read(text) else { return };
    let base = text.len() / 49 - t.statements.len();
    for s in 0..t.statements.len() {
        let body = t.body(t.owner[s]);
        let (line, last) = (&mut text[49 * (base + s)..49 * (base + s) + 49], s + 1 == body.end);
        let ordinary = !matches!(t.statements[s], document::Op::Call(..) | document::Op::Start(..));
        if ordinary && !last && r.one_in(3) {
            let target = body.start + r.below(body.len());
            line.copy_from_slice(format!("     4{:>6}{target:>6}     0     0     0     0     0\n", if r.one_in(8) { 10 } else { 11 }).as_bytes());
        } else if !ordinary && r.one_in(4) {
            line[11] = if r.one_in(3) { b'9' } else { b'8' };
        }
    }
}

/// A table whose routines take, for writing and for reading, and give locks round CALLs of each other, from several places: what is held hangs on every way in and out.
fn locked(r: &mut Random) -> Vec<u8> {
    let (routines, locks) = (2 + r.below(6), 1 + r.below(4));
    let counts: Vec<usize> = (0..routines).map(|_| 4 + r.below(12)).collect();
    let (handles, own) = (routines * (1 + locks), 1 + locks);
    let mut lines = vec![vec![1, 1, locks, handles, routines, counts.iter().sum()]];
    for q in 0..routines {
        lines.push(vec![2, q, 1, 1, 0]);
        lines.extend((0..locks).map(|k| vec![2, q, 2, 1, k]));
    }
    lines.extend(counts.iter().map(|&n| vec![3, n]));
    let mut first = 0;
    for (q, &count) in counts.iter().enumerate() {
        let lock = |r: &mut Random| own * q + 1 + r.below(locks);
        for k in 0..count {
            lines.push(match r.below(12) {
                _ if k + 1 == count => if r.one_in(5) { vec![4, 10, first + r.below(count)] } else { vec![4, 12] },
                // The next routine is named at least once.
                _ if k == 1 && q + 1 < routines => vec![4, if r.one_in(4) { 9 } else { 8 }, q + 1],
                0..=3 => vec![4, if r.one_in(2) { 5 } else { 13 }, lock(r)],
                4 | 5 => vec![4, 6, lock(r)],
                6..=8 if q + 1 < routines => vec![4, if r.one_in(4) { 9 } else { 8 }, q + 1 + r.below(routines - q - 1)],
                9 => vec![4, 11, first + r.below(count)],
                10 if r.one_in(3) => vec![4, 12],
                _ => vec![4, 1 + r.below(2), own * q],
            });
        }
        first += count;
    }
    lines.iter().flat_map(line).collect()
}

fn line(l: &Vec<usize>) -> Vec<u8> {
    (0..8).flat_map(|j| format!("{:>6}", l.get(j).unwrap_or(&0)).into_bytes()).chain([b'\n']).collect()
}

/// The same table with its routines from 1 on in another order: the generator's name higher ones only.
fn shuffle(r: &mut Random, text: &mut Vec<u8>) {
    let Ok(t) = document::read(text) else { return };
    let mut order: Vec<usize> = (0..t.routines.len()).collect();
    for i in 2..order.len() {
        order.swap(i, 1 + r.below(i));
    }
    // What has been put down so far, and where the old numbers went.
    let (mut handles, mut statements) = (vec![0; t.handles.len()], vec![0; t.statements.len()]);
    let place = |q: usize| order.iter().position(|&o| o == q).unwrap();
    order.iter().flat_map(|&o| &t.routines[o].handles).enumerate().for_each(|(new, &old)| handles[old] = new);
    order.iter().flat_map(|&o| t.body(o)).enumerate().for_each(|(new, old)| statements[old] = new);
    let mut lines = vec![vec![1, t.cells, t.locks, t.handles.len(), t.routines.len(), t.statements.len()]];
    for (new, &o) in order.iter().enumerate() {
        let own = t.routines[o].handles.iter().map(|&h| t.handles[h]);
        lines.extend(own.map(|h| vec![2, new, 1 + h.lock as usize, !h.parameter as usize, h.start]));
    }
    lines.extend(order.iter().map(|&o| vec![3, t.routines[o].count]));
    let old = text.split_off(49 * lines.len());
    text.clear();
    lines.iter().for_each(|l| text.extend(line(l)));
    for s in order.iter().flat_map(|&o| t.body(o)) {
        use document::Op::*;
        let named = |op: usize, q: usize, a: [usize; 4]| [vec![4, op, place(q)], a[..t.routines[q].parameters].iter().map(|&h| handles[h]).collect()].concat();
        let new = match t.statements[s] {
            Read(h) => vec![4, 1, handles[h]],
            Write(h) => vec![4, 2, handles[h]],
            Take(h) => vec![4, 5, handles[h]],
            Give(h) => vec![4, 6, handles[h]],
            Taker(h) => vec![4, 13, handles[h]],
            Point(h, g) => vec![4, 7, handles[h], handles[g]],
            Call(q, a) => named(8, q, a),
            Start(q, a) => named(9, q, a),
            Jump(x) => vec![4, 10, statements[x]],
            JumpZero(x) => vec![4, 11, statements[x]],
            Set(_) | Add(_) | Return => vec![],
        };
        text.extend(if new.is_empty() { old[49 * s..49 * s + 49].to_vec() } else { line(&new) });
    }
}

/// A field that is off by a number in which a narrower one would be caught: 256 more, 65,536 more, negative, one more or less.
fn nudge(r: &mut Random, text: &mut [u8]) {
    let (i, j) = (r.below(text.len() / 49), r.below(8));
    let field = &mut text[49 * i + 6 * j..49 * i + 6 * j + 6];
    let Some(n) = std::str::from_utf8(field).ok().and_then(|f| f.trim().parse::<i64>().ok()) else { return };
    let new = format!("{:>6}", [n + 256, n + 512, n + 1000, n + 65536, n + 1, n - 1, -n][r.below(7)]);
    if new.len() == 6 {
        field.copy_from_slice(new.as_bytes());
    }
}

fn main() {
    let words: Vec<String> = std::env::args().skip(1).collect();
    let (seed, count) = (words[0].parse::<u64>().expect("SEED"), words[1].parse::<usize>().expect("COUNT"));
    let mut r = Random(seed * 2 + 88172645463325252);
    let (mut met, mut shuffled) = ([0usize; 14], 0);
    for path in &words[2..] {
        met[compare(&std::fs::read(path).expect(path), 0)] += 1;
    }
    for i in 0..count {
        let mut text = match r.below(8) {
            0 => generate::guarded(&mut r),
            1 | 2 => locked(&mut r),
            3 => generate::set_up(&mut r),
            _ => generate::table(&mut r, i % 20 == 0),
        };
        if r.one_in(4) {
            stir(&mut r, &mut text);
        }
        if r.one_in(3) {
            shuffle(&mut r, &mut text);
            shuffled += (document::read(&text).is_ok()) as usize;
        }
        if r.one_in(3) {
            for _ in 0..1 + r.below(2) {
                if r.one_in(3) && text.len() >= 49 {
                    nudge(&mut r, &mut text);
                } else {
                    generate::damage(&mut r, &mut text);
                }
            }
        }
        let short = if r.one_in(10) { 1 + r.below(200) } else { 0 };
        met[compare(&text, short)] += 1;
        if r.one_in(8) {
            compare_run(&text, &generate::schedule(&mut r));
        }
    }
    println!("plain against the document: {} tables and {count} random texts, seed {seed}, no difference; answers 0 to 13 met {met:?}; {shuffled} accepted ones with routines in another order", words.len() - 2);
    assert!(count < 20000 || met.iter().all(|&n| n > 0), "an answer was never met");
}
