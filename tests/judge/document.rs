//! Documents 01 and 02 in plain Rust, written from the documents alone: the reader, the report and the engine.

use std::collections::BTreeSet;

pub const LONGEST: usize = 32977;

#[derive(Clone, Copy, Debug, PartialEq)]
pub enum Op {
    Read(usize),
    Write(usize),
    Set(i32),
    Add(i32),
    Take(usize),
    Taker(usize),
    Give(usize),
    Point(usize, usize),
    Call(usize, [usize; 4]),
    Start(usize, [usize; 4]),
    Jump(usize),
    JumpZero(usize),
    Return,
}

#[derive(Clone, Copy, Debug)]
pub struct Handle {
    pub routine: usize,
    pub lock: bool,
    pub parameter: bool,
    pub start: usize,
}

#[derive(Clone, Debug)]
pub struct Routine {
    pub first: usize,
    pub count: usize,
    pub handles: Vec<usize>,
    pub parameters: usize,
}

#[derive(Clone, Debug)]
pub struct Table {
    pub cells: usize,
    pub locks: usize,
    pub handles: Vec<Handle>,
    pub routines: Vec<Routine>,
    pub statements: Vec<Op>,
    pub owner: Vec<usize>,
}

/// A refusal: its number and its line.
pub type Refusal = (u32, u32);

fn number(chars: &[u8]) -> Option<i32> {
    let text = std::str::from_utf8(chars).ok()?;
    let digits = text.trim_start_matches(' ');
    let value: i32 = digits.parse().ok()?;
    // Only the canonical form prints as the same six characters.
    if format!("{value:>6}") == text {
        Some(value)
    } else {
        None
    }
}

fn lines_of(text: &[u8]) -> Result<Vec<[i32; 8]>, Refusal> {
    if text.is_empty() || text.len() % 49 != 0 || text.len() > LONGEST {
        return Err((1, 0));
    }
    let mut lines = Vec::new();
    for (i, bytes) in text.chunks(49).enumerate() {
        let mut line = [0; 8];
        for (j, place) in line.iter_mut().enumerate() {
            *place = number(&bytes[6 * j..6 * j + 6]).ok_or((2, i as u32))?;
        }
        if bytes[48] != b'\n' {
            return Err((2, i as u32));
        }
        lines.push(line);
    }
    Ok(lines)
}

fn in_range(n: i32, low: i32, high: i32) -> bool {
    low <= n && n <= high
}

pub fn read(text: &[u8]) -> Result<Table, Refusal> {
    let lines = lines_of(text)?;
    let h = lines[0];
    if h[0] != 1 || !in_range(h[1], 1, 64) || !in_range(h[2], 0, 16) || !in_range(h[3], 0, 128) || !in_range(h[4], 1, 32) || !in_range(h[5], 1, 512) || h[6] != 0 || h[7] != 0 {
        return Err((3, 0));
    }
    let (cells, locks, handles, routines, statements) = (h[1] as usize, h[2] as usize, h[3] as usize, h[4] as usize, h[5] as usize);
    if lines.len() != 1 + handles + routines + statements {
        return Err((4, 0));
    }
    for (i, l) in lines.iter().enumerate().skip(1) {
        let wanted = if i < 1 + handles { 2 } else if i < 1 + handles + routines { 3 } else { 4 };
        if l[0] != wanted {
            return Err((5, i as u32));
        }
    }
    // Handles, one after the other, with what has been seen of each routine.
    let mut table = Table { cells, locks, handles: vec![], routines: vec![], statements: vec![], owner: vec![] };
    let (mut seen, mut parameters, mut locals) = (vec![0; routines], vec![0; routines], vec![0; routines]);
    let mut last = 0;
    for i in 0..handles {
        let l = lines[1 + i];
        let fail = Err((6, 1 + i as u32));
        if !in_range(l[1], 0, routines as i32 - 1) || !in_range(l[2], 1, 2) || !in_range(l[3], 0, 1) || l[5] != 0 || l[6] != 0 || l[7] != 0 {
            return fail;
        }
        let r = l[1] as usize;
        let limit = if l[2] == 1 { cells } else { locks };
        if l[3] == 0 && l[4] != 0 || l[3] == 1 && !in_range(l[4], 0, limit as i32 - 1) {
            return fail;
        }
        seen[r] += 1;
        if r < last || seen[r] > 8 {
            return fail;
        }
        last = r;
        if l[3] == 0 {
            parameters[r] += 1;
            if r == 0 || locals[r] > 0 || parameters[r] > 4 {
                return fail;
            }
        } else {
            locals[r] += 1;
        }
        table.handles.push(Handle { routine: r, lock: l[2] == 2, parameter: l[3] == 0, start: l[4] as usize });
    }
    for r in 0..routines {
        let l = lines[1 + handles + r];
        if !in_range(l[1], 1, statements as i32) || l[2..].iter().any(|&x| x != 0) {
            return Err((7, (1 + handles + r) as u32));
        }
        let first = table.routines.last().map_or(0, |q: &Routine| q.first + q.count);
        let own = (0..handles).filter(|&i| table.handles[i].routine == r).collect();
        table.routines.push(Routine { first, count: l[1] as usize, handles: own, parameters: parameters[r] });
    }
    if table.routines.iter().map(|r| r.count).sum::<usize>() != statements {
        return Err((8, 0));
    }
    for (r, routine) in table.routines.iter().enumerate() {
        table.owner.extend(std::iter::repeat(r).take(routine.count));
    }
    let base = 1 + handles + routines;
    for s in 0..statements {
        match statement(&table, s, &lines[base + s]) {
            Some(op) => table.statements.push(op),
            None => return Err((9, (base + s) as u32)),
        }
    }
    for r in &table.routines {
        let s = r.first + r.count - 1;
        if !matches!(table.statements[s], Op::Jump(_) | Op::Return) {
            return Err((10, (base + s) as u32));
        }
    }
    let names = |r: usize| -> Vec<usize> { table.body(r).filter_map(|s| table.named(s)).collect() };
    for q in 1..routines {
        if !(0..routines).any(|r| names(r).contains(&q)) {
            return Err((11, (1 + handles + q) as u32));
        }
    }
    for q in 0..routines {
        let (mut todo, mut reached) = (names(q), vec![false; routines]);
        while let Some(r) = todo.pop() {
            if !reached[r] {
                reached[r] = true;
                todo.extend(names(r));
            }
        }
        if reached[q] {
            return Err((12, (1 + handles + q) as u32));
        }
    }
    Ok(table)
}

fn statement(t: &Table, s: usize, l: &[i32; 8]) -> Option<Op> {
    let r = t.owner[s];
    let own = |x: i32| -> Option<usize> {
        let h = usize::try_from(x).ok()?;
        if h < t.handles.len() && t.handles[h].routine == r {
            Some(h)
        } else {
            None
        }
    };
    let of_kind = |x: i32, lock: bool| own(x).filter(|&h| t.handles[h].lock == lock);
    let zeros = |from: usize| if l[from..].iter().all(|&x| x == 0) { Some(()) } else { None };
    let target = || {
        let x = usize::try_from(l[2]).ok()?;
        if x < t.owner.len() && t.owner[x] == r {
            Some(x)
        } else {
            None
        }
    };
    let naming = || {
        let q = usize::try_from(l[2]).ok().filter(|&q| q < t.routines.len())?;
        let wanted = &t.routines[q].handles[..t.routines[q].parameters];
        let mut arguments = [0; 4];
        for k in 0..4 {
            if k < wanted.len() {
                arguments[k] = of_kind(l[3 + k], t.handles[wanted[k]].lock)?;
            } else if l[3 + k] != 0 {
                return None;
            }
        }
        Some((q, arguments))
    };
    match l[1] {
        1 => of_kind(l[2], false).and_then(|h| zeros(3).map(|_| Op::Read(h))),
        2 => of_kind(l[2], false).and_then(|h| zeros(3).map(|_| Op::Write(h))),
        3 => zeros(3).map(|_| Op::Set(l[2])),
        4 => zeros(3).map(|_| Op::Add(l[2])),
        5 => of_kind(l[2], true).and_then(|h| zeros(3).map(|_| Op::Take(h))),
        6 => of_kind(l[2], true).and_then(|h| zeros(3).map(|_| Op::Give(h))),
        7 => {
            let (h, g) = (own(l[2])?, own(l[3])?);
            zeros(4)?;
            if t.handles[h].lock == t.handles[g].lock {
                Some(Op::Point(h, g))
            } else {
                None
            }
        }
        8 => naming().and_then(|(q, a)| zeros(7).map(|_| Op::Call(q, a))),
        9 => naming().and_then(|(q, a)| zeros(7).map(|_| Op::Start(q, a))),
        10 => target().and_then(|x| zeros(3).map(|_| Op::Jump(x))),
        11 => target().and_then(|x| zeros(3).map(|_| Op::JumpZero(x))),
        12 => zeros(2).map(|_| Op::Return),
        13 => of_kind(l[2], true).and_then(|h| zeros(3).map(|_| Op::Taker(h))),
        _ => None,
    }
}

impl Table {
    pub fn body(&self, r: usize) -> std::ops::Range<usize> {
        self.routines[r].first..self.routines[r].first + self.routines[r].count
    }

    pub fn named(&self, s: usize) -> Option<usize> {
        match self.statements[s] {
            Op::Call(q, _) | Op::Start(q, _) => Some(q),
            _ => None,
        }
    }

    pub fn has_taker(&self) -> bool {
        self.statements.iter().any(|op| matches!(op, Op::Taker(_)))
    }

    fn nexts(&self, s: usize) -> Vec<usize> {
        match self.statements[s] {
            Op::Jump(x) => vec![x],
            Op::JumpZero(x) => vec![x, s + 1],
            Op::Return => vec![],
            _ => vec![s + 1],
        }
    }
}

/// A set of cells or locks.
pub type Set = u64;

/// What the report is made of.
pub struct Findings {
    pub reads: Vec<usize>,
    pub writes: Vec<usize>,
    pub shared: Vec<bool>,
    pub common: Vec<Set>,
    /// The common locks before C-13: no access is left out.
    pub common_of_all: Vec<Set>,
    /// Not the document's: the common locks if a hold of either kind did at a WRITE too.
    pub common_either: Vec<Set>,
    /// Not the document's: the common locks of the accesses that C-13 leaves out, in the place of the counted ones.
    pub common_uncounted: Vec<Set>,
    pub stray: Vec<usize>,
    /// Some READ or WRITE has more than one cell in its handle's set.
    pub several: bool,
    /// C-12: how many passes flow took, and whether the table is one for which two settle the sets.
    pub passes: usize,
    pub helpers_first: bool,
}

impl Findings {
    pub fn unguarded(&self, x: usize) -> bool {
        self.shared[x] && self.common[x] == 0
    }

    pub fn clean(&self) -> bool {
        self.stray.is_empty() && (0..self.shared.len()).all(|x| !self.unguarded(x))
    }

    /// Clean by the report before C-13.
    pub fn clean_before(&self) -> bool {
        self.stray.is_empty() && (0..self.shared.len()).all(|x| !(self.shared[x] && self.common_of_all[x] == 0))
    }
}

fn until_still<T: PartialEq + Clone>(mut value: T, change: impl Fn(&mut T)) -> T {
    loop {
        let before = value.clone();
        change(&mut value);
        if value == before {
            return value;
        }
    }
}

/// What one statement puts into what.
fn put(t: &Table, s: usize, flow: &mut [Set]) {
    match t.statements[s] {
        Op::Point(h, g) => flow[h] |= flow[g],
        Op::Call(q, a) | Op::Start(q, a) => {
            for k in 0..t.routines[q].parameters {
                flow[t.routines[q].handles[k]] |= flow[a[k]];
            }
        }
        _ => {}
    }
}

/// C-12: "pass over the statements from the highest number down until a pass changes nothing"; the sets, and how many passes that took.
fn flow_by_passes(t: &Table, begin: &[Set]) -> (Vec<Set>, usize) {
    let (mut flow, mut passes) = (begin.to_vec(), 0);
    loop {
        let before = flow.clone();
        (0..t.statements.len()).rev().for_each(|s| put(t, s, &mut flow));
        passes += 1;
        if flow == before {
            return (flow, passes);
        }
    }
}

/// C-12: "a table has no POINT and each CALL or START outside routine 0 names a lower routine".
fn helpers_first(t: &Table) -> bool {
    (0..t.statements.len()).all(|s| match t.statements[s] {
        Op::Point(..) => false,
        Op::Call(q, _) | Op::Start(q, _) => t.owner[s] == 0 || q < t.owner[s],
        _ => true,
    })
}

/// C-20: the counts of line 51 in one walk over the statements, adding to each cell in the handle's set; reads and writes.
fn walked(t: &Table, flow: &[Set]) -> [Vec<usize>; 2] {
    let mut counts = [vec![0; t.cells], vec![0; t.cells]];
    for op in &t.statements {
        let (h, write) = match *op {
            Op::Read(h) => (h, 0),
            Op::Write(h) => (h, 1),
            _ => continue,
        };
        (0..t.cells).filter(|x| flow[h] >> x & 1 == 1).for_each(|x| counts[write][x] += 1);
    }
    counts
}

/// C-13: "a START or a CALL that reaches one by CALLs": by routine, whether it holds a START or reaches by CALLs a routine that does.
fn reaches_start(t: &Table) -> Vec<bool> {
    until_still(vec![false; t.routines.len()], |reaches| {
        for s in 0..t.statements.len() {
            match t.statements[s] {
                Op::Start(..) => reaches[t.owner[s]] = true,
                Op::Call(q, _) => reaches[t.owner[s]] |= reaches[q],
                _ => {}
            }
        }
    })
}

/// The statements that may follow `s` in its routine, in one step or more.
fn following(t: &Table, s: usize) -> Vec<usize> {
    let (mut todo, mut found) = (t.nexts(s), vec![]);
    while let Some(x) = todo.pop() {
        if !found.contains(&x) {
            found.push(x);
            todo.extend(t.nexts(x));
        }
    }
    found
}

/// C-13: "A START can precede a statement if its routine is named by a START, if a START can precede some CALL of its routine, or if it may follow, in its
/// routine, a START or a CALL that reaches one by CALLs."
fn start_can_precede(t: &Table) -> Vec<bool> {
    let reaches = reaches_start(t);
    let mut begin = vec![false; t.statements.len()];
    for s in 0..begin.len() {
        if let Op::Start(q, _) = t.statements[s] {
            t.body(q).for_each(|x| begin[x] = true);
        }
        if matches!(t.statements[s], Op::Start(..)) || matches!(t.statements[s], Op::Call(q, _) if reaches[q]) {
            following(t, s).into_iter().for_each(|x| begin[x] = true);
        }
    }
    until_still(begin, |can| {
        for s in 0..can.len() {
            match t.statements[s] {
                Op::Call(q, _) if can[s] => t.body(q).for_each(|x| can[x] = true),
                _ => {}
            }
        }
    })
}

/// Held sets: from all locks down, every way in intersected. C-18: "TAKE adds to both sets; TAKER adds only to the second set", the one of holds of either
/// kind; with `writing` the first, that of the holds for writing.
fn held(t: &Table, flow: &[Set], gives: &[Set], writing: bool) -> Vec<Set> {
    let n = t.statements.len();
    let all: Set = (1 << t.locks) - 1;
    until_still(vec![all; n], |held| {
        let mut new = vec![all; n];
        new[t.routines[0].first] = 0;
        for s in 0..n {
            let after = match t.statements[s] {
                Op::Take(h) if flow[h].count_ones() == 1 => held[s] | flow[h],
                Op::Taker(h) if !writing && flow[h].count_ones() == 1 => held[s] | flow[h],
                Op::Give(h) => held[s] & !flow[h],
                Op::Call(q, _) => {
                    let at_returns = t.body(q).filter(|&x| t.statements[x] == Op::Return).fold(all, |a, x| a & held[x]);
                    at_returns | held[s] & !gives[q]
                }
                _ => held[s],
            };
            for x in t.nexts(s) {
                new[x] &= after;
            }
            match t.statements[s] {
                Op::Call(q, _) => new[t.routines[q].first] &= held[s],
                Op::Start(q, _) => new[t.routines[q].first] = 0,
                _ => {}
            }
        }
        *held = new;
    })
}

pub fn findings(t: &Table) -> Findings {
    let n = t.statements.len();
    let all: Set = (1 << t.locks) - 1;
    let begin: Vec<Set> = t.handles.iter().map(|h| if h.parameter { 0 } else { 1u64 << h.start }).collect();
    let (flow, passes) = flow_by_passes(t, &begin);
    let upwards = until_still(begin, |flow| (0..n).for_each(|s| put(t, s, flow)));
    assert_eq!(flow, upwards, "C-12: the sets are the same from the lowest number up");
    let helpers_first = helpers_first(t);
    assert!(passes <= if helpers_first { 3 } else { t.handles.len().max(1) }, "C-12: {passes} passes");
    // Reads and writes of a routine, and the locks that it may give up.
    let effect = until_still(vec![[0 as Set; 2]; t.routines.len()], |effect| {
        for s in 0..n {
            let r = t.owner[s];
            match t.statements[s] {
                Op::Read(h) => effect[r][0] |= flow[h],
                Op::Write(h) => effect[r][1] |= flow[h],
                Op::Call(q, _) | Op::Start(q, _) => (0..2).for_each(|w| effect[r][w] |= effect[q][w]),
                _ => {}
            }
        }
    });
    let gives = until_still(vec![0 as Set; t.routines.len()], |gives| {
        for s in 0..n {
            match t.statements[s] {
                Op::Give(h) => gives[t.owner[s]] |= flow[h],
                Op::Call(q, _) => gives[t.owner[s]] |= gives[q],
                _ => {}
            }
        }
    });
    let own_effect = |s: usize| match t.statements[s] {
        Op::Read(h) => [flow[h], 0],
        Op::Write(h) => [0, flow[h]],
        Op::Call(q, _) | Op::Start(q, _) => effect[q],
        _ => [0, 0],
    };
    let future = until_still(vec![[0 as Set; 2]; n], |future| {
        for s in (0..n).rev() {
            for x in t.nexts(s) {
                for w in 0..2 {
                    future[s][w] |= own_effect(x)[w] | future[x][w];
                }
            }
            for c in 0..n {
                if let Op::Call(q, _) = t.statements[c] {
                    if q == t.owner[s] {
                        (0..2).for_each(|w| future[s][w] |= future[c][w]);
                    }
                }
            }
        }
    });
    let (either, writing) = (held(t, &flow, &gives, false), held(t, &flow, &gives, true));
    assert!((0..n).all(|s| writing[s] & !either[s] == 0), "C-18: a lock held for writing is held");
    let at_access = |s: usize| if matches!(t.statements[s], Op::Write(_)) { writing[s] } else { either[s] };
    let several = t.statements.iter().any(|op| matches!(*op, Op::Read(h) | Op::Write(h) if flow[h].count_ones() > 1));
    let counted = start_can_precede(t);
    let mut found = Findings { reads: vec![], writes: vec![], shared: vec![], common: vec![], common_of_all: vec![], common_either: vec![], common_uncounted: vec![], stray: vec![], several, passes, helpers_first };
    for x in 0..t.cells {
        let has = |set: Set| set >> x & 1 == 1;
        let accesses = |write: bool| {
            (0..n)
                .filter(|&s| match t.statements[s] {
                    Op::Read(h) => !write && has(flow[h]),
                    Op::Write(h) => write && has(flow[h]),
                    _ => false,
                })
                .collect::<Vec<_>>()
        };
        let (reads, writes) = (accesses(false), accesses(true));
        // C-13: "Leave an access out of the common locks if no START can precede it." C-18: "surely held for writing at each counted WRITE and surely held
        // either way at each counted READ".
        found.common.push(reads.iter().chain(&writes).filter(|&&s| counted[s]).fold(all, |a, &s| a & at_access(s)));
        found.common_either.push(reads.iter().chain(&writes).filter(|&&s| counted[s]).fold(all, |a, &s| a & either[s]));
        found.common_uncounted.push(reads.iter().chain(&writes).filter(|&&s| !counted[s]).fold(all, |a, &s| a & at_access(s)));
        found.common_of_all.push(reads.iter().chain(&writes).fold(all, |a, &s| a & at_access(s)));
        found.reads.push(reads.len());
        found.writes.push(writes.len());
        found.shared.push((0..n).any(|s| match t.statements[s] {
            Op::Start(q, _) => {
                let (mine, theirs) = (future[s], effect[q]);
                has(mine[0] | mine[1]) && has(theirs[0] | theirs[1]) && has(mine[1] | theirs[1])
            }
            _ => false,
        }));
    }
    let [reads, writes] = walked(t, &flow);
    assert_eq!((&reads, &writes), (&found.reads, &found.writes), "C-20: the walk and the counts cell by cell");
    for s in 0..n {
        if let Op::Give(h) = t.statements[s] {
            if flow[h].count_ones() != 1 || flow[h] & either[s] == 0 {
                found.stray.push(s);
            }
        }
    }
    found
}

fn print(out: &mut Vec<u8>, numbers: [u64; 8]) {
    for n in numbers {
        out.extend(format!("{n:>6}").bytes());
    }
    out.push(b'\n');
}

pub fn report(t: &Table) -> Vec<u8> {
    let f = findings(t);
    let mut out = vec![];
    for x in 0..t.cells {
        print(&mut out, [51, x as u64, f.reads[x] as u64, f.writes[x] as u64, f.shared[x] as u64, f.common[x], f.unguarded(x) as u64, 0]);
    }
    for &s in &f.stray {
        print(&mut out, [52, s as u64, 0, 0, 0, 0, 0, 0]);
    }
    let unguarded = (0..t.cells).filter(|&x| f.unguarded(x)).count();
    print(&mut out, [59, unguarded as u64, f.stray.len() as u64, 0, 0, 0, 0, 0]);
    out
}

#[derive(Clone, Debug, PartialEq, Eq, Hash)]
pub struct Frame {
    pub routine: usize,
    pub next: usize,
    pub values: Vec<usize>,
}

#[derive(Clone, Debug, PartialEq, Eq, Hash)]
pub struct Thread {
    pub accumulator: i32,
    pub frames: Vec<Frame>,
}

/// The threads that hold a lock for writing, and those that hold it for reading; ended ones too.
#[derive(Clone, Debug, Default, PartialEq, Eq, Hash)]
pub struct Lock {
    pub writing: BTreeSet<usize>,
    pub reading: BTreeSet<usize>,
}

impl Lock {
    pub fn held_by(&self, n: usize) -> bool {
        self.writing.contains(&n) || self.reading.contains(&n)
    }
}

/// A thread that holds a common lock of a cell, in one state: the steps that other threads can take there, and whether one of them touches the cell.
pub struct Beside {
    pub cell: usize,
    pub steps: usize,
    pub changed: bool,
}

#[derive(Clone, Debug, PartialEq, Eq, Hash)]
pub struct State {
    pub threads: Vec<Thread>,
    pub cells: Vec<i32>,
    pub locks: Vec<Lock>,
}

impl State {
    pub fn start(t: &Table) -> State {
        let first = State::frame(t, 0, &[]);
        State { threads: vec![Thread { accumulator: 0, frames: vec![first] }], cells: vec![0; t.cells], locks: vec![Lock::default(); t.locks] }
    }

    fn frame(t: &Table, r: usize, arguments: &[usize]) -> Frame {
        let routine = &t.routines[r];
        let values = routine.handles.iter().enumerate().map(|(k, &h)| if t.handles[h].parameter { arguments[k] } else { t.handles[h].start }).collect();
        Frame { routine: r, next: routine.first, values }
    }

    /// What handle `h` refers to in thread `n`'s newest frame.
    pub fn refers(&self, t: &Table, n: usize, h: usize) -> usize {
        let frame = self.threads[n].frames.last().unwrap();
        frame.values[h - t.routines[frame.routine].handles[0]]
    }

    /// One step of thread `n`: 0, or the refusal, the state then as it was.
    pub fn step(&mut self, t: &Table, n: usize, limited: bool) -> u8 {
        if n >= self.threads.len() {
            return 14;
        }
        let Some(frame) = self.threads[n].frames.last() else { return 15 };
        let s = frame.next;
        let started = self.threads.len();
        let refers = |h: usize| self.refers(t, n, h);
        let mut next = s + 1;
        match t.statements[s] {
            Op::Read(h) => self.threads[n].accumulator = self.cells[refers(h)],
            Op::Write(h) => {
                let x = refers(h);
                self.cells[x] = self.threads[n].accumulator;
            }
            Op::Set(v) => self.threads[n].accumulator = v,
            // C-17: "ADD now stops at 2,147,483,647 and at -2,147,483,648."
            Op::Add(v) => {
                let sum = self.threads[n].accumulator as i64 + v as i64;
                self.threads[n].accumulator = sum.min(2_147_483_647).max(-2_147_483_648) as i32;
            }
            // C-18: "TAKE waits while anybody holds it."
            Op::Take(h) => {
                let k = refers(h);
                let lock = &mut self.locks[k];
                if !lock.writing.is_empty() || !lock.reading.is_empty() {
                    return 16;
                }
                lock.writing.insert(n);
            }
            // C-18: "It waits (16) while a thread holds the lock for writing or this thread holds it at all."
            Op::Taker(h) => {
                let k = refers(h);
                let lock = &mut self.locks[k];
                if !lock.writing.is_empty() || lock.held_by(n) {
                    return 16;
                }
                lock.reading.insert(n);
            }
            // C-18: "GIVE ends either hold".
            Op::Give(h) => {
                let k = refers(h);
                let lock = &mut self.locks[k];
                if !lock.held_by(n) {
                    return 17;
                }
                lock.writing.remove(&n);
                lock.reading.remove(&n);
            }
            Op::Point(h, g) => {
                let value = refers(g);
                let frame = self.threads[n].frames.last_mut().unwrap();
                let base = t.routines[frame.routine].handles[0];
                frame.values[h - base] = value;
            }
            Op::Call(q, a) | Op::Start(q, a) => {
                let call = matches!(t.statements[s], Op::Call(..));
                if limited && !call && started == 16 {
                    return 18;
                }
                let passed: Vec<usize> = (0..t.routines[q].parameters).map(|k| refers(a[k])).collect();
                let opened = State::frame(t, q, &passed);
                self.threads[n].frames.last_mut().unwrap().next = next;
                if call {
                    self.threads[n].frames.push(opened);
                    // C-16: "so 32 frames always suffice".
                    assert!(self.threads[n].frames.len() <= 32, "thread {n} has 33 frames");
                } else {
                    self.threads.push(Thread { accumulator: 0, frames: vec![opened] });
                }
                return 0;
            }
            Op::Jump(x) => next = x,
            Op::JumpZero(x) => {
                if self.threads[n].accumulator == 0 {
                    next = x;
                }
            }
            Op::Return => {
                self.threads[n].frames.pop();
                return 0;
            }
        }
        self.threads[n].frames.last_mut().unwrap().next = next;
        0
    }

    /// Each lock is free, or one thread holds it for writing, or some hold it for reading.
    pub fn one_writer_or_readers(&self) -> bool {
        self.locks.iter().all(|lock| lock.writing.is_empty() || lock.writing.len() == 1 && lock.reading.is_empty())
    }

    /// The most threads that hold one lock for reading.
    pub fn readers(&self) -> usize {
        self.locks.iter().map(|lock| lock.reading.len()).max().unwrap_or(0)
    }

    /// The access that thread `n` stands before: the cell, and whether it writes.
    pub fn access(&self, t: &Table, n: usize) -> Option<(usize, bool)> {
        let frame = self.threads[n].frames.last()?;
        match t.statements[frame.next] {
            Op::Read(h) => Some((self.refers(t, n, h), false)),
            Op::Write(h) => Some((self.refers(t, n, h), true)),
            _ => None,
        }
    }

    /// C-22: "From the step by which a thread gets that lock, for reading or writing, until it gives it up, no step of another thread changes the cell." Of this
    /// state: the cells, each with a thread that holds a lock that `common` has for the cell, and how many steps other threads can take then; and whether one of
    /// these changes the cell, or WRITEs the value that is there. An ended thread keeps its locks.
    pub fn beside_holders(&self, t: &Table, common: &[Set]) -> Vec<Beside> {
        let after: Vec<Option<State>> = (0..self.threads.len())
            .map(|n| {
                let mut next = self.clone();
                (next.step(t, n, false) == 0).then_some(next)
            })
            .collect();
        let mut found = vec![];
        for (cell, &locks) in common.iter().enumerate() {
            for m in 0..self.threads.len() {
                if !(0..t.locks).any(|k| locks >> k & 1 == 1 && self.locks[k].held_by(m)) {
                    continue;
                }
                let others = || (0..self.threads.len()).filter(|&n| n != m).filter_map(|n| Some((n, after[n].as_ref()?)));
                let changed = others().any(|(n, next)| next.cells[cell] != self.cells[cell] || self.access(t, n) == Some((cell, true)));
                found.push(Beside { cell, steps: others().count(), changed });
            }
        }
        found
    }

    /// Two threads stand before accesses of one cell of which one writes, or one before a release of what it does not hold.
    pub fn unsafe_now(&self, t: &Table) -> bool {
        let accesses: Vec<_> = (0..self.threads.len()).filter_map(|n| self.access(t, n)).collect();
        let race = accesses.iter().enumerate().any(|(i, a)| accesses[i + 1..].iter().any(|b| a.0 == b.0 && (a.1 || b.1)));
        let stray = (0..self.threads.len()).any(|n| match self.threads[n].frames.last().map(|f| t.statements[f.next]) {
            Some(Op::Give(h)) => !self.locks[self.refers(t, n, h)].held_by(n),
            _ => false,
        });
        race || stray
    }
}
