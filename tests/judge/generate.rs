//! Random table texts, most of them accepted, some damaged, and schedules for them.

pub struct Random(pub u64);

impl Random {
    pub fn next(&mut self) -> u64 {
        self.0 ^= self.0 << 13;
        self.0 ^= self.0 >> 7;
        self.0 ^= self.0 << 17;
        self.0
    }

    pub fn below(&mut self, n: usize) -> usize {
        (self.next() >> 11) as usize % n.max(1)
    }

    pub fn one_in(&mut self, n: usize) -> bool {
        self.below(n) == 0
    }
}

fn line(out: &mut Vec<u8>, numbers: &[i64]) {
    for j in 0..8 {
        out.extend(format!("{:>6}", numbers.get(j).copied().unwrap_or(0)).bytes());
    }
    out.push(b'\n');
}

/// Handles of a routine: (kind, parameter, start).
type Own = Vec<(i64, bool, i64)>;

/// The text of a table with these handles and statements of each routine.
fn written(cells: usize, locks: usize, own: &[Own], bodies: &[Vec<Vec<i64>>]) -> Vec<u8> {
    let mut out = vec![];
    let handles: usize = own.iter().map(|h| h.len()).sum();
    let statements: usize = bodies.iter().map(|b| b.len()).sum();
    line(&mut out, &[1, cells as i64, locks as i64, handles as i64, own.len() as i64, statements as i64]);
    for (q, mine) in own.iter().enumerate() {
        for &(kind, parameter, start) in mine {
            line(&mut out, &[2, q as i64, kind, !parameter as i64, start]);
        }
    }
    for b in bodies {
        line(&mut out, &[3, b.len() as i64]);
    }
    for s in bodies.iter().flatten() {
        let mut numbers = vec![4];
        numbers.extend(s);
        line(&mut out, &numbers);
    }
    out
}

/// The same table with routine 0 first and the others the other way round: then each CALL or START outside routine 0 names a lower routine.
fn turned(own: &[Own], bodies: &[Vec<Vec<i64>>]) -> (Vec<Own>, Vec<Vec<Vec<i64>>>) {
    let count = own.len();
    let order: Vec<usize> = (0..count).map(|q| (count - q) % count).collect();
    // The new number of each thing of routine q, by its old one.
    let moved = |lengths: &dyn Fn(usize) -> usize| -> Vec<i64> {
        let first = |q: usize| order.iter().take_while(|&&p| p != q).map(|&p| lengths(p)).sum::<usize>();
        (0..count).flat_map(|q| (0..lengths(q)).map(move |k| (q, k))).map(|(q, k)| (first(q) + k) as i64).collect()
    };
    let handles = moved(&|q| own[q].len());
    let statements = moved(&|q| bodies[q].len());
    let change = |l: &Vec<i64>| -> Vec<i64> {
        match l[0] {
            1 | 2 | 5 | 6 | 7 | 13 => l[..1].iter().copied().chain(l[1..].iter().map(|&h| handles[h as usize])).collect(),
            8 | 9 => [l[0], (count as i64 - l[1]) % count as i64].into_iter().chain(l[2..].iter().map(|&h| handles[h as usize])).collect(),
            10 | 11 => vec![l[0], statements[l[1] as usize]],
            _ => l.clone(),
        }
    };
    (order.iter().map(|&q| own[q].clone()).collect(), order.iter().map(|&q| bodies[q].iter().map(change).collect()).collect())
}

/// A table text that keeps the rules: routines name higher ones only.
pub fn table(r: &mut Random, largest: bool) -> Vec<u8> {
    let (cells, locks, own, bodies) = parts(r, largest);
    written(cells, locks, &own, &bodies)
}

/// A table text without POINT in which routines other than 0 name lower ones only.
pub fn helpers_first(r: &mut Random, largest: bool) -> Vec<u8> {
    let (cells, locks, own, mut bodies) = parts(r, largest);
    bodies.iter_mut().flatten().filter(|l| l[0] == 7).for_each(|l| *l = vec![3, 0]);
    let (own, bodies) = turned(&own, &bodies);
    written(cells, locks, &own, &bodies)
}

/// The cells, the locks, and the handles and statements of each routine.
fn parts(r: &mut Random, largest: bool) -> (usize, usize, Vec<Own>, Vec<Vec<Vec<i64>>>) {
    let routines = if largest { 1 + r.below(32) } else { 1 + r.below(5) };
    let cells = if largest { 1 + r.below(64) } else { 1 + r.below(3) };
    let locks = if largest { r.below(17) } else { r.below(3) };
    let mut budget = if largest { 128 } else { 24 };
    let mut own: Vec<Own> = vec![];
    for q in 0..routines {
        let mut mine: Own = vec![];
        let parameters = if q == 0 { 0 } else { r.below(5) };
        let locals = r.below(9 - parameters);
        for k in 0..(parameters + locals).min(budget) {
            let lock = locks > 0 && r.one_in(2);
            let start = r.below(if lock { locks } else { cells }) as i64;
            mine.push((1 + lock as i64, k < parameters, if k < parameters { 0 } else { start }));
        }
        budget -= mine.len();
        own.push(mine);
    }
    let bases: Vec<usize> = (0..routines).map(|q| own[..q].iter().map(|h| h.len()).sum()).collect();
    let mut bodies: Vec<Vec<Vec<i64>>> = vec![];
    let mut room = if largest { 512 } else { 60 };
    for q in 0..routines {
        let left = routines - q;
        let most = (room / left).min(if largest { 40 } else { 10 }).max(1);
        let count = 1 + r.below(most);
        room -= count;
        bodies.push(vec![vec![]; count]);
    }
    let firsts: Vec<usize> = (0..routines).map(|q| bodies[..q].iter().map(|b| b.len()).sum()).collect();
    for q in 0..routines {
        let count = bodies[q].len();
        for s in 0..count {
            bodies[q][s] = if s + 1 == count {
                if r.one_in(4) { vec![10, (firsts[q] + r.below(count)) as i64] } else { vec![12] }
            } else {
                statement(r, q, routines, &own, &bases, firsts[q], count)
            };
        }
    }
    // Every routine but 0 is to be named: by a statement that names none yet, where the arguments can be had.
    for q in 1..routines {
        if bodies.iter().flatten().any(|l| l[0] / 2 == 4 && l[1] == q as i64) {
            continue;
        }
        let mut places = vec![];
        for caller in 0..q {
            for s in 0..bodies[caller].len() - 1 {
                if bodies[caller][s][0] / 2 != 4 {
                    places.push((caller, s));
                }
            }
        }
        for _ in 0..20 {
            if places.is_empty() {
                break;
            }
            let (caller, s) = places[r.below(places.len())];
            if let Some(l) = naming(r, caller, q, &own, &bases) {
                bodies[caller][s] = l;
                break;
            }
        }
    }
    (cells, locks, own, bodies)
}

/// A block: READ or WRITE of a cell, mostly between TAKE or TAKER and GIVE of its lock, and mostly READ behind TAKER; handles 0 and 1 of the routine are
/// cells, 2 and 3 their locks.
fn guarded_block(r: &mut Random, base: i64, body: &mut Vec<Vec<i64>>) {
    let cell = r.below(2) as i64;
    let lock = base + 2 + if r.one_in(8) { 1 - cell } else { cell };
    let guarded = !r.one_in(6);
    let reading = guarded && r.one_in(2);
    if guarded {
        body.push(vec![if reading { 13 } else { 5 }, lock]);
    }
    for _ in 0..1 + r.below(2) {
        let write = if reading { r.one_in(8) } else { r.one_in(2) };
        body.push(vec![1 + write as i64, base + cell]);
        if r.one_in(2) {
            body.push(vec![4, 1]);
        }
    }
    if guarded && !r.one_in(12) {
        body.push(vec![6, lock]);
    }
}

/// One of a routine's two lock handles may now refer to either lock; what it gives up through them is left out, as a GIVE of either lock is stray.
fn either_lock(r: &mut Random, base: i64, body: &mut Vec<Vec<i64>>) {
    let h = r.below(2) as i64;
    body.retain(|l| l[0] != 6);
    body.insert(r.below(body.len() + 1), vec![7, base + 2 + h, base + 3 - h]);
}

/// A table text of two cells and two locks: routine 0 starts up to three threads, all access the cells, most under their locks.
pub fn guarded(r: &mut Random) -> Vec<u8> {
    let routines = 2 + r.below(2);
    let passed = r.one_in(2);
    let mut bodies: Vec<Vec<Vec<i64>>> = vec![];
    for q in 0..routines {
        let base = 4 * q as i64;
        let mut body = vec![];
        if q == 0 {
            for k in 0..1 + r.below(3) {
                let mut l = vec![9 - r.one_in(5) as i64, 1 + (k % (routines - 1)) as i64];
                l.extend(if passed { vec![0, 1, 2, 3] } else { vec![] });
                body.push(l);
            }
        }
        for _ in 0..1 + r.below(2) {
            guarded_block(r, base, &mut body);
        }
        if r.one_in(6) {
            either_lock(r, base, &mut body);
        }
        // The end: mostly RETURN; else routine 0 stands still, and another goes round.
        let first = bodies.iter().map(|b| b.len()).sum::<usize>();
        let target = if q == 0 { body.len() } else { first } as i64;
        body.push(if r.one_in(6) { vec![10, target] } else { vec![12] });
        bodies.push(body);
    }
    let own: Vec<Own> = (0..routines).map(|q| (0..4).map(|k| (1 + k / 2, passed && q > 0, if passed && q > 0 { 0 } else { k % 2 })).collect()).collect();
    written(2, 2, &own, &bodies)
}

/// Accesses of the two cells, mostly without their locks, as set-up has them.
fn bare_accesses(r: &mut Random, base: i64, body: &mut Vec<Vec<i64>>) {
    for _ in 0..1 + r.below(2) {
        if r.one_in(4) {
            guarded_block(r, base, body);
        } else {
            body.push(vec![1 + !r.one_in(3) as i64, base + r.below(2) as i64]);
        }
    }
}

/// Routine 0 of `set_up`: accesses, a CALL of 2 or none, a START of 1 or none, a CALL or START of 2, accesses under locks, and now and then a loop.
fn set_up_main(r: &mut Random, starts: bool) -> Vec<Vec<i64>> {
    let mut main = vec![];
    bare_accesses(r, 0, &mut main);
    if r.one_in(2) {
        main.push(vec![8, 2]);
    }
    if starts {
        main.push(vec![9, 1]);
    }
    if r.one_in(3) || !main.contains(&vec![8, 2]) {
        main.push(vec![8 + r.one_in(5) as i64, 2]);
    }
    if !r.one_in(4) {
        guarded_block(r, 0, &mut main);
    }
    main.push(if r.one_in(6) { vec![11, r.below(main.len()) as i64] } else { vec![3, 0] });
    main.push(vec![12]);
    main
}

/// A table text of two cells and two locks, with set-up before its first START (C-13): routine 0 sets up, starts thread 1 and calls helper 2, before the
/// START, behind it or both; or the helper starts it, itself or by a CALL of routine 3.
pub fn set_up(r: &mut Random) -> Vec<u8> {
    let starts = !r.one_in(3);
    let (deep, mut bodies) = (r.one_in(2), vec![set_up_main(r, starts), vec![], vec![]]);
    for _ in 0..1 + r.below(2) {
        guarded_block(r, 4, &mut bodies[1]);
    }
    if r.one_in(2) { bare_accesses(r, 8, &mut bodies[2]) } else { guarded_block(r, 8, &mut bodies[2]) }
    // Where routine 0 does not start routine 1, the helper does, before or behind its own accesses.
    let named = if deep { vec![8, 3] } else { vec![9, 1] };
    if deep || !starts || r.one_in(6) {
        let at = if r.one_in(2) { 0 } else { bodies[2].len() };
        bodies[2].insert(at, named);
    }
    if deep {
        bodies.push(if !starts || r.one_in(6) { vec![vec![9, 1]] } else { vec![vec![3, 0]] });
    }
    bodies.iter_mut().skip(1).for_each(|b| b.push(vec![12]));
    let own: Vec<Own> = bodies.iter().map(|_| (0..4).map(|k| (1 + k / 2, false, k % 2)).collect()).collect();
    written(2, 2, &own, &bodies)
}

fn pick(r: &mut Random, mine: &Own, base: usize, kind: i64) -> Option<i64> {
    let all: Vec<usize> = (0..mine.len()).filter(|&k| mine[k].0 == kind).collect();
    if all.is_empty() {
        None
    } else {
        Some((base + all[r.below(all.len())]) as i64)
    }
}

fn naming(r: &mut Random, q: usize, callee: usize, own: &[Own], bases: &[usize]) -> Option<Vec<i64>> {
    let mut l = vec![8 + r.below(2) as i64, callee as i64];
    for h in own[callee].iter().filter(|h| h.1) {
        l.push(pick(r, &own[q], bases[q], h.0)?);
    }
    Some(l)
}

fn statement(r: &mut Random, q: usize, routines: usize, own: &[Own], bases: &[usize], first: usize, count: usize) -> Vec<i64> {
    let set = vec![3, r.below(3) as i64 - 1];
    let cell = pick(r, &own[q], bases[q], 1);
    let lock = pick(r, &own[q], bases[q], 2);
    match r.below(15) {
        0 | 1 => cell.map_or(set, |h| vec![1, h]),
        2 | 3 => cell.map_or(set, |h| vec![2, h]),
        4 => vec![4, r.below(2_000_000) as i64 % 1_099_999 - 99_999],
        5 | 6 => lock.map_or(set, |h| vec![5, h]),
        7 | 8 => lock.map_or(set, |h| vec![6, h]),
        9 => {
            let kind = 1 + r.below(2) as i64;
            match (pick(r, &own[q], bases[q], kind), pick(r, &own[q], bases[q], kind)) {
                (Some(h), Some(g)) => vec![7, h, g],
                _ => set,
            }
        }
        10 | 11 if q + 1 < routines => {
            let callee = q + 1 + r.below(routines - q - 1);
            naming(r, q, callee, own, bases).unwrap_or(set)
        }
        12 => vec![10 + r.below(2) as i64, (first + r.below(count)) as i64],
        13 => vec![11, (first + r.below(count)) as i64],
        14 => lock.map_or(set, |h| vec![13, h]),
        _ => set,
    }
}

/// A table text of threads that add in loops and write what they have, each mostly one way and a little back: in a long schedule their sums stop at an end.
pub fn sums(r: &mut Random) -> Vec<u8> {
    let routines = 2 + r.below(2);
    let mut bodies: Vec<Vec<Vec<i64>>> = vec![(1..routines).map(|q| vec![9, q as i64]).chain([vec![12]]).collect()];
    for q in 1..routines {
        let first: usize = bodies.iter().map(|b| b.len()).sum();
        let far = [999_999, -99_999][r.below(2)];
        let mut body = vec![];
        for _ in 0..10 + r.below(20) {
            body.push(vec![4, if r.one_in(15) { r.below(2_001) as i64 - 1_000 } else { far }]);
        }
        body.extend([vec![2, q as i64 - 1], vec![10, first as i64]]);
        bodies.push(body);
    }
    let own: Vec<Own> = (0..routines).map(|q| if q == 0 { vec![] } else { vec![(1, false, q as i64 - 1)] }).collect();
    written(routines - 1, 0, &own, &bodies)
}

/// A table text whose routines, mostly all 32, call each other down a chain and work on the cells that they were passed, the two exchanged at each call:
/// a thread comes to as many frames as there are routines. One CALL in thirty is a START.
pub fn chain(r: &mut Random) -> Vec<u8> {
    let routines = if r.one_in(4) { 2 + r.below(31) } else { 32 };
    let own: Vec<Own> = (0..routines).map(|q| (0..2).map(|k| (1, q > 0, if q > 0 { 0 } else { k })).collect()).collect();
    let mut bodies: Vec<Vec<Vec<i64>>> = vec![];
    for q in 0..routines {
        let (one, other) = (2 * q as i64, 2 * q as i64 + 1);
        let mut body = vec![];
        if q + 1 < routines {
            body.push(vec![8 + r.one_in(30) as i64, q as i64 + 1, other, one]);
        }
        body.extend([vec![1, one], vec![4, q as i64 + 1], vec![2, one]]);
        if r.one_in(3) {
            body.push(vec![7, one, other]);
        }
        body.push(vec![12]);
        bodies.push(body);
    }
    written(2, 0, &own, &bodies)
}

/// One change: a field, a byte, the length, or two lines exchanged.
pub fn damage(r: &mut Random, text: &mut Vec<u8>) {
    if text.len() < 49 {
        return;
    }
    let lines = text.len() / 49;
    match r.below(10) {
        9 => {
            // another operation, the numbers on both sides of the known ones too
            let statements: Vec<usize> = (0..lines).filter(|&i| &text[49 * i..49 * i + 6] == b"     4").collect();
            if !statements.is_empty() {
                let i = statements[r.below(statements.len())];
                text[49 * i + 6..49 * i + 12].copy_from_slice(format!("{:>6}", r.below(15)).as_bytes());
            }
        }
        8 => {
            // another routine named by some CALL or START
            let naming: Vec<usize> = (0..lines).filter(|&i| matches!(&text[49 * i..49 * i + 12], b"     4     8" | b"     4     9")).collect();
            if !naming.is_empty() {
                let i = naming[r.below(naming.len())];
                text[49 * i + 12..49 * i + 18].copy_from_slice(format!("{:>6}", r.below(4)).as_bytes());
            }
        }
        0..=4 => {
            let (i, j) = (r.below(lines), r.below(8));
            let values = [0i64, 1, 2, 3, 4, -1, 7, 12, 13, 14, 64, 65, 512, 999_999, -99_999, r.below(40) as i64];
            let field = format!("{:>6}", values[r.below(values.len())]);
            text[49 * i + 6 * j..49 * i + 6 * j + 6].copy_from_slice(field.as_bytes());
        }
        5 => {
            let at = r.below(text.len());
            text[at] = [b' ', b'0', b'-', b'+', b'\n', b'\t', b'9', r.below(256) as u8][r.below(8)];
        }
        6 => match r.below(4) {
            0 => text.truncate(text.len() - 49),
            1 => text.push(b' '),
            2 => text.extend_from_within(text.len() - 49..),
            _ => text.truncate(r.below(text.len())),
        },
        _ => {
            let (i, k) = (49 * r.below(lines), 49 * r.below(lines));
            for b in 0..49 {
                text.swap(i + b, k + b);
            }
        }
    }
}

pub fn schedule(r: &mut Random) -> Vec<u8> {
    let threads = 1 + r.below(20);
    let length = r.below(200);
    (0..length).map(|_| if r.one_in(50) { r.below(256) as u8 } else { r.below(threads) as u8 }).collect()
}

/// For `sums`: both threads are started, and most are long enough for -99,999 to come to the end of the range.
pub fn long_schedule(r: &mut Random) -> Vec<u8> {
    let mut out = vec![0; 2];
    out.extend((0..20_000 + r.below(80_000)).map(|_| if r.one_in(50) { r.below(20) } else { 1 + r.below(2) } as u8));
    out
}

/// For `chain`: mostly long enough to come to the end of the chain, and half of them back.
pub fn deep_schedule(r: &mut Random) -> Vec<u8> {
    (0..20 + r.below(400)).map(|_| if r.one_in(5) { r.below(4) } else { 0 } as u8).collect()
}
