//! A plain check and engine in Rust, written for speed: what the proved code is measured against.
//!
//! A reading of the documents without proofs and without unsafe code; `bench/check/agree` holds it to the judge's reading (tests/judge).
//! This file is the reader; `plain/check.rs` has the report, `plain/engine.rs` the engine.
//! - A number below 1000 is four bytes, multiplied out at once and then compared with that number's own four characters; other numbers are eight bytes,
//!   digits tested and added up side by side. A line's tail of zeros is compared whole.
//! - One pass over the text. At the first refusal the lines behind it are looked at for refusals 2 and 5 only: no other could come before it.
//! - What the analysis needs of all statements is noted while reading: how many of each operation use a handle, which handles a POINT puts into it (a routine
//!   has at most eight, so a byte), which routines are called and started, where CALLs and STARTs stand, and where runs of statements begin.
#[path = "plain/check.rs"]
mod check;
#[path = "plain/engine.rs"]
mod engine;
#[allow(unused_imports)]
pub use check::{report, report_in_phases};
#[allow(unused_imports)]
pub use engine::run;

const LINE: usize = 49;
type Line = [u8; LINE];
type Refusal = (u32, u32);

const READ: u8 = 1;
const WRITE: u8 = 2;
const SET: u8 = 3;
const ADD: u8 = 4;
const TAKE: u8 = 5;
const GIVE: u8 = 6;
const POINT: u8 = 7;
const CALL: u8 = 8;
const START: u8 = 9;
const JUMP: u8 = 10;
const JUMPZ: u8 = 11;
const RETURN: u8 = 12;
const TAKER: u8 = 13;

/// A statement, in 16 bytes, so that the engine finds it by a shift: `x` is its handle, number, routine or target, `with` the arguments of CALL and START, or POINT's second handle.
#[derive(Clone, Copy, Default)]
#[repr(align(16))]
pub struct Statement {
    x: i32,
    op: u8,
    with: [u8; 4],
}

/// A handle: its routine and kind in one number, where a local starts, the handles that a POINT puts into it (counted from the routine's first), and how many
/// statements of each operation use it, TAKER and TAKE together.
#[derive(Clone, Copy, Default)]
struct Handle {
    key: u8,
    local: bool,
    start: u8,
    into: u8,
    uses: [u16; 8],
}

/// A routine: its statements from `first` to before `end`, its first handle and their number, its parameters, and the routines that it CALLs and STARTs.
#[derive(Clone, Copy, Default)]
struct Routine {
    first: u16,
    end: u16,
    handle: u8,
    handles: u8,
    parameters: u8,
    /// The kinds of the parameters.
    kinds: [u8; 4],
    /// Whether it has a POINT, and a jump that goes back.
    points: bool,
    back: bool,
    calls: u32,
    starts: u32,
}

/// What handles of this routine and kind are known by.
fn key(r: usize, kind: usize) -> u8 {
    (4 * r + kind) as u8
}

/// A set of statements.
#[derive(Clone, Copy, Default)]
struct Places([u64; 9]);

impl Places {
    fn add(&mut self, s: usize) {
        self.0[s / 64] |= 1 << (s % 64);
    }

    fn has(&self, s: usize) -> bool {
        self.0[s / 64] >> (s % 64) & 1 == 1
    }

    fn remove(&mut self, s: usize) {
        self.0[s / 64] &= !(1 << (s % 64));
    }

    /// The lowest member from `s` on, if it is below `end`.
    #[inline]
    fn next(&self, s: usize, end: usize) -> Option<usize> {
        let mut word = s / 64;
        let mut bits = self.0[word] & (!0 << (s % 64));
        while bits == 0 && 64 * word + 64 < end {
            word += 1;
            bits = self.0[word];
        }
        let found = 64 * word + bits.trailing_zeros() as usize;
        (bits != 0 && found < end).then_some(found)
    }

    /// The highest member below `end`, if it is `s` or above.
    #[inline]
    fn last(&self, s: usize, end: usize) -> Option<usize> {
        let mut word = (end - 1) / 64;
        let mut bits = self.0[word] & (!0 >> (63 - (end - 1) % 64));
        while bits == 0 && 64 * word > s {
            word -= 1;
            bits = self.0[word];
        }
        let found = (64 * word + 63).wrapping_sub(bits.leading_zeros() as usize);
        (bits != 0 && found >= s).then_some(found)
    }
}

pub struct Table {
    cells: usize,
    locks: usize,
    handles: Vec<Handle>,
    routines: Vec<Routine>,
    body: Vec<Statement>,
    /// The routines, each before those that it names.
    order: [u8; 32],
    /// CALLs and STARTs.
    naming: Places,
    /// The first statements of runs: of routines, targets, and those behind a jump, RETURN or CALL.
    heads: Places,
}

const ZEROS: Line = *b"     0     0     0     0     0     0     0     0\n";

/// The numbers below 1000 as they stand in a line: four characters.
static SMALL: [[u8; 4]; 1000] = {
    let (mut all, mut n) = ([[b' '; 4]; 1000], 0);
    while n < 1000 {
        let (mut rest, mut at) = (n, 3);
        while rest > 0 || at == 3 {
            all[n][at] = b'0' + (rest % 10) as u8;
            (rest, at) = (rest / 10, at - 1);
        }
        n += 1;
    }
    all
};

/// Field `j` of a line if it is a number below 1000: four bytes at once, and then whether they are that number's own.
#[inline(always)]
fn small(line: &Line, j: usize) -> Option<usize> {
    let four: [u8; 4] = line[6 * j + 2..6 * j + 6].try_into().unwrap();
    let pairs = ((u32::from_le_bytes(four) & 0x0f0f_0f0f) * (10 << 8 | 1) >> 8) & 0x00ff_00ff;
    let n = (pairs.wrapping_mul(100 << 16 | 1) >> 16) as usize;
    (line[6 * j..6 * j + 2] == *b"  " && SMALL.get(n) == Some(&four)).then_some(n)
}

const BYTES: u64 = 0x0101_0101_0101_0101;

/// Eight characters in a number, the first lowest, a space as 0 and a digit d as 0x10 + d: 0 and their value, if they are one without sign.
#[inline(always)]
fn unsigned(x: u64) -> (u64, i32) {
    // The last byte counts as used, so that a lone 0 has no zero before it.
    let zeros = (x | 1 << 56).trailing_zeros();
    let used = !0u64 << (zeros & 56);
    let tens = (0x10 * BYTES) & used;
    let bad = ((x ^ tens) | (x.wrapping_add((6 * BYTES) & used) ^ tens)) & (0xf0 * BYTES);
    // Neighbours are put together: digits to pairs, pairs to fours, fours to the number.
    let pairs = ((x & (0x0f * BYTES)).wrapping_mul(10 << 8 | 1) >> 8) & 0x00ff_00ff_00ff_00ff;
    let fours = (pairs.wrapping_mul(100 << 16 | 1) >> 16) & 0x0000_ffff_0000_ffff;
    (bad | (zeros & 4) as u64, (fours.wrapping_mul(10000 << 32 | 1) >> 32) as i32)
}

/// Field `j` of a line: six characters in eight bytes.
#[inline(always)]
fn number(line: &Line, j: usize) -> Option<i32> {
    let at = (6 * j).saturating_sub(2);
    let eight = u64::from_le_bytes(line[at..at + 8].try_into().unwrap());
    let x = (if j == 0 { eight << 16 } else { eight & !0xffff }) ^ ((0x20 * BYTES) & !0xffff);
    let (bad, n) = unsigned(x);
    if bad == 0 {
        return Some(n);
    }
    // A minus sign straight before the first digit, which is not 0.
    let sign = x.trailing_zeros() & 56;
    let rest = x & !(0xff << sign);
    let (bad, n) = unsigned(rest);
    (x >> sign & 0xff == (b'-' ^ b' ') as u64 && bad == 0 && n != 0 && rest.trailing_zeros() & 56 == sign + 8).then_some(-n)
}

/// The eight numbers of a line, or none.
fn numbers(line: &Line) -> Option<[i32; 8]> {
    let (mut numbers, used) = ([0; 8], if line[18..] == ZEROS[18..] { 3 } else { 8 });
    for j in 0..used {
        numbers[j] = match small(line, j) {
            Some(n) => n as i32,
            None => number(line, j)?,
        };
    }
    (line[48] == b'\n').then_some(numbers)
}

/// Cells, locks, handles, routines and statements from the header, or the refusal.
fn counts(header: &[i32; 8], lines: usize) -> Result<[usize; 5], Refusal> {
    let [lead, cells, locks, handles, routines, statements, a, b] = *header;
    let sizes = (1..=64).contains(&cells) && (0..=16).contains(&locks) && (0..=128).contains(&handles);
    if lead != 1 || !sizes || !(1..=32).contains(&routines) || !(1..=512).contains(&statements) || a != 0 || b != 0 {
        return Err((3, 0));
    }
    if lines as i32 != 1 + handles + routines + statements {
        return Err((4, 0));
    }
    Ok([cells, locks, handles, routines, statements].map(|n| n as usize))
}

/// Why line `at`, which is to begin with `lead`, is turned down: 2, 5, or else `number`.
#[cold]
fn refusal(line: &Line, lead: i32, number: u32, at: u32) -> Refusal {
    match numbers(line) {
        None => (2, at),
        Some(n) if n[0] != lead => (5, at),
        Some(_) => (number, at),
    }
}

/// The refusal of a text, if `found` is the first one by the order of its lines: behind it only 2 and 5 could come before it.
#[cold]
fn first_refusal(lines: &[Line], handles: usize, routines: usize, found: Refusal) -> Refusal {
    let mut least = found;
    if found.0 == 2 || found.0 > 9 {
        return found;
    }
    for i in found.1 as usize + 1..lines.len() {
        let lead = if i <= handles { 2 } else if i <= handles + routines { 3 } else { 4 };
        match numbers(&lines[i]) {
            None => return (2, i as u32),
            Some(n) if n[0] != lead => least = least.min((5, i as u32)),
            Some(_) => {}
        }
    }
    least
}

/// The table of a text, or the first refusal.
pub fn read(text: &[u8]) -> Result<Table, Refusal> {
    let (lines, rest) = text.as_chunks::<LINE>();
    if lines.is_empty() || !rest.is_empty() || text.len() > 32977 {
        return Err((1, 0));
    }
    let header = numbers(&lines[0]).ok_or((2, 0))?;
    let [cells, locks, handles, routines, statements] = counts(&header, lines.len()).map_err(|found| first_refusal(lines, 0, 0, found))?;
    let mut t = Table {
        cells,
        locks,
        handles: vec![Handle::default(); handles],
        routines: vec![Routine::default(); routines],
        body: vec![Statement::default(); statements],
        order: [0; 32],
        naming: Places::default(),
        heads: Places::default(),
    };
    t.fill(lines).map_err(|found| first_refusal(lines, handles, routines, found))?;
    Ok(t)
}

impl Table {
    fn all_locks(&self) -> u16 {
        ((1u32 << self.locks) - 1) as u16
    }

    /// The first refusal from 5 on in the order of the lines, 2 among them.
    fn fill(&mut self, lines: &[Line]) -> Result<(), Refusal> {
        let (handles, routines) = (self.handles.len(), self.routines.len());
        self.fill_handles(&lines[1..1 + handles])?;
        self.fill_routines(&lines[1 + handles..1 + handles + routines])?;
        let base = 1 + handles + routines;
        for r in 0..routines {
            self.fill_body(r, base, &lines[base..])?;
        }
        let open = |q: &Routine| !matches!(self.body[q.end as usize - 1].op, JUMP | RETURN);
        if let Some(q) = self.routines.iter().find(|q| open(q)) {
            return Err((10, base as u32 + q.end as u32 - 1));
        }
        let named = self.routines.iter().fold(1, |all, q| all | q.calls | q.starts);
        let missing = (!named).trailing_zeros() as usize;
        if missing < routines {
            return Err((11, (1 + handles + missing) as u32));
        }
        self.put_in_order().map_err(|r| (12, (1 + handles + r) as u32))
    }

    fn fill_handles(&mut self, lines: &[Line]) -> Result<(), Refusal> {
        let mut before = 0;
        for (h, line) in lines.iter().enumerate() {
            let at = 1 + h as u32;
            let quick = || Some([small(line, 1)?, small(line, 2)?, small(line, 3)?, small(line, 4)?]);
            let [r, kind, origin, start] = match quick() {
                Some(fields) if line[..6] == *b"     2" && line[30..] == ZEROS[30..] => fields,
                _ => return Err(refusal(line, 2, 6, at)),
            };
            let things = if kind == 1 { self.cells } else { self.locks };
            let starts = if origin == 0 { start == 0 } else { origin == 1 && start < things };
            if r < before || r >= self.routines.len() || (kind != 1 && kind != 2) || !starts {
                return Err((6, at));
            }
            before = r;
            let q = &mut self.routines[r];
            q.handle = if q.handles == 0 { h as u8 } else { q.handle };
            if q.handles == 8 || origin == 0 && (r == 0 || q.parameters < q.handles || q.parameters == 4) {
                return Err((6, at));
            }
            if origin == 0 {
                q.kinds[q.parameters as usize] = kind as u8;
                q.parameters += 1;
            }
            q.handles += 1;
            self.handles[h] = Handle { key: key(r, kind), local: origin == 1, start: start as u8, ..Handle::default() };
        }
        Ok(())
    }

    fn fill_routines(&mut self, lines: &[Line]) -> Result<(), Refusal> {
        let (mut first, all) = (0, self.body.len());
        for (r, line) in lines.iter().enumerate() {
            let at = (1 + self.handles.len() + r) as u32;
            match small(line, 1) {
                Some(n) if n >= 1 && n <= all && line[..6] == *b"     3" && line[12..] == ZEROS[12..] => {
                    self.routines[r].first = first as u16;
                    first += n;
                    self.routines[r].end = first as u16;
                }
                _ => return Err(refusal(line, 3, 7, at)),
            }
        }
        if first == all { Ok(()) } else { Err((8, 0)) }
    }

    /// The statements of routine `r`.
    fn fill_body(&mut self, r: usize, base: usize, lines: &[Line]) -> Result<(), Refusal> {
        let (first, end) = (self.routines[r].first as usize, self.routines[r].end as usize);
        self.heads.add(first);
        for (k, line) in lines[first..end].iter().enumerate() {
            if line[..6] != *b"     4" || self.statement(r, first + k, line).is_none() {
                return Err(refusal(line, 4, 9, (base + first + k) as u32));
            }
        }
        Ok(())
    }

    /// Puts down statement `s` of routine `r`, if the line from its second field on keeps its rule.
    #[inline(always)]
    fn statement(&mut self, r: usize, s: usize, line: &Line) -> Option<()> {
        let op = small(line, 1).filter(|&op| op <= TAKER as usize)? as u8;
        let one = line[18..] == ZEROS[18..];
        if matches!(op, READ | WRITE | TAKE | GIVE | TAKER) {
            let x = small(line, 2)?;
            let h = self.handles.get_mut(x)?;
            h.uses[op as usize & 7] += 1;
            self.body[s] = Statement { x: x as i32, op, with: [0; 4] };
            return (one && h.key == key(r, 1 + (op >= TAKE) as usize)).then_some(());
        }
        match op {
            SET | ADD if one => {
                self.body[s] = Statement { x: number(line, 2)?, op, with: [0; 4] };
                Some(())
            }
            JUMP | JUMPZ | RETURN if one => self.jump(r, s, op, small(line, 2)?),
            CALL | START => self.name(r, s, op, line),
            POINT => self.point(r, s, line),
            _ => None,
        }
    }

    #[inline(always)]
    fn jump(&mut self, r: usize, s: usize, op: u8, x: usize) -> Option<()> {
        self.body[s] = Statement { x: x as i32, op, with: [0; 4] };
        self.heads.add(s + 1);
        if op == RETURN {
            return (x == 0).then_some(());
        }
        let q = &mut self.routines[r];
        if x < q.first as usize || x >= q.end as usize {
            return None;
        }
        q.back |= x <= s;
        self.heads.add(x);
        Some(())
    }

    fn point(&mut self, r: usize, s: usize, line: &Line) -> Option<()> {
        let (x, y) = (small(line, 2)?, small(line, 3)?);
        let (h, g) = (*self.handles.get(x)?, self.handles.get(y)?);
        if h.key / 4 != r as u8 || h.key != g.key || line[24..] != ZEROS[24..] {
            return None;
        }
        self.body[s] = Statement { x: x as i32, op: POINT, with: [y as u8, 0, 0, 0] };
        self.handles[x].into |= 1 << (y as u8 - self.routines[r].handle);
        self.routines[r].points = true;
        Some(())
    }

    /// CALL or START: its routine and arguments.
    fn name(&mut self, r: usize, s: usize, op: u8, line: &Line) -> Option<()> {
        let x = small(line, 2)?;
        let q = *self.routines.get(x)?;
        let mut with = [0; 4];
        if q.parameters == 0 && line[18..] != ZEROS[18..] || line[42..] != ZEROS[42..] {
            return None;
        }
        for k in 0..if q.parameters == 0 { 0 } else { 4 } {
            let y = small(line, 3 + k)?;
            let good = if k < q.parameters as usize { self.handles.get(y)?.key == key(r, q.kinds[k] as usize) } else { y == 0 };
            if !good {
                return None;
            }
            with[k] = y as u8;
        }
        self.body[s] = Statement { x: x as i32, op, with };
        self.naming.add(s);
        if op == CALL {
            self.routines[r].calls |= 1 << x;
            self.heads.add(s + 1);
        } else {
            self.routines[r].starts |= 1 << x;
        }
        Some(())
    }

    /// Each routine before those that it names; or the lowest that reaches itself.
    fn put_in_order(&mut self) -> Result<(), usize> {
        let (count, mut names) = (self.routines.len(), [0u32; 32]);
        for (named, q) in names.iter_mut().zip(&self.routines) {
            *named = q.calls | q.starts;
        }
        if (0..count).all(|r| names[r].trailing_zeros() as usize > r) {
            self.order = std::array::from_fn(|r| r as u8);
            return Ok(());
        }
        let (mut left, mut done) = (!0u32 >> (32 - count), 0);
        while left != 0 {
            // Next come those that nothing left names.
            let free = left & !members(left).fold(0, |all, r| all | names[r]);
            if free == 0 {
                return Err(members(left).find(|&r| reach(&names, names[r]) >> r & 1 == 1).unwrap_or(0));
            }
            for r in members(free) {
                self.order[done] = r as u8;
                done += 1;
            }
            left &= !free;
        }
        Ok(())
    }
}

/// The members of a set of routines, upwards.
fn members(mut set: u32) -> impl Iterator<Item = usize> {
    std::iter::from_fn(move || {
        let r = set.trailing_zeros() as usize;
        set &= set.wrapping_sub(1);
        (r < 32).then_some(r)
    })
}

/// The routines that are reached from those in `from`.
fn reach(names: &[u32; 32], from: u32) -> u32 {
    let (mut todo, mut seen) = (from, 0u32);
    while todo != 0 {
        let r = todo.trailing_zeros() as usize;
        seen |= 1 << r;
        todo = (todo | names[r]) & !seen;
    }
    seen
}
