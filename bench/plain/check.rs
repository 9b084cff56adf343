//! The plain check: flow, effects and given-up locks, held sets, futures, findings and the report's lines.
//!
//! - Flow goes through the routines callers first, effects and given-up locks callees first: once each, and by handles, not by statements.
//! - A run of statements without jump, target or CALL is one place. Held sets go upwards through the runs that are reached, with the callee's at its first CALL, by
//!   a set of runs still to look at, of which the lowest is next; a run that nothing leads to is looked at when its routine has no other.
//! - Both held sets of C-18 are one number, held in either way below and for writing above, and so one solve: the rules take each bit by itself.
//! - Futures are asked for at STARTs alone, so only routines with a START, or a CALL that leads to one, are walked: callers first, statements downwards. Where
//!   a jump goes back, one walk along the ways finds the runs that lead to each other, which have one set; it takes as long as there are runs, however they jump.
//! - What a START can precede (C-13) is known by routine where that is all of it, else by run: one walk along the ways from each START and each CALL that
//!   reaches one, in the routines that futures walk too.
//! - Common locks are met by handle and only then spread over the handle's cells, eight at a time.
use super::*;

/// Reads and writes of cells.
type Effect = [u64; 2];

fn join(a: Effect, b: Effect) -> Effect {
    [a[0] | b[0], a[1] | b[1]]
}

/// What each handle may refer to: routines callers first, so that parameters are complete when their routine is looked at.
fn flow(t: &Table) -> [u64; 128] {
    let mut sets = [0; 128];
    for (set, h) in sets.iter_mut().zip(&t.handles) {
        *set = (h.local as u64) << h.start;
    }
    for &r in &t.order[..t.routines.len()] {
        let routine = &t.routines[r as usize];
        if routine.points {
            close_points(&t.handles, routine, &mut sets);
        }
        let (mut at, end) = (routine.first as usize, routine.end as usize);
        while let Some(s) = t.naming.next(at, end) {
            at = s + 1;
            let q = &t.routines[t.body[s].x as usize];
            for (k, &h) in t.body[s].with[..q.parameters as usize].iter().enumerate() {
                sets[q.handle as usize + k] |= sets[h as usize];
            }
        }
    }
    sets
}

/// The least sets above these under the POINTs of a routine.
fn close_points(handles: &[Handle], q: &Routine, sets: &mut [u64; 128]) {
    let (base, mut changed) = (q.handle as usize, true);
    while changed {
        changed = false;
        for h in base..base + q.handles as usize {
            let before = sets[h];
            for g in members(handles[h].into as u32) {
                sets[h] |= sets[base + g];
            }
            changed |= sets[h] != before;
        }
    }
}

/// The effect of each routine, and the locks that it may give up: callees first.
fn effects(t: &Table, flow: &[u64; 128]) -> ([Effect; 32], [u16; 32]) {
    let (mut effects, mut given) = ([[0; 2]; 32], [0; 32]);
    for &r in t.order[..t.routines.len()].iter().rev() {
        let q = &t.routines[r as usize];
        let (mut effect, mut gives) = ([0; 2], 0);
        for h in q.handle as usize..(q.handle + q.handles) as usize {
            let used = &t.handles[h].uses;
            effect[0] |= if used[READ as usize] > 0 { flow[h] } else { 0 };
            effect[1] |= if used[WRITE as usize] > 0 { flow[h] } else { 0 };
            gives |= if used[GIVE as usize] > 0 { flow[h] as u16 } else { 0 };
        }
        for named in members(q.calls | q.starts) {
            effect = join(effect, effects[named]);
        }
        for called in members(q.calls) {
            gives |= given[called];
        }
        (effects[r as usize], given[r as usize]) = (effect, gives);
    }
    (effects, given)
}

/// A run of statements, from its head to `last`: what is held before it, and before its last statement if that is a jump, RETURN or CALL, else behind it,
/// is `held & keep | gain`; these and `last` are filled in when it is first looked at. Of the runs that CALL one routine each has the next one's head.
#[derive(Clone, Copy)]
struct Run {
    held: u32,
    keep: u32,
    gain: u32,
    last: u16,
    next_caller: u16,
    routine: u8,
}

/// Locks held in either way and for writing.
const fn both(locks: u16) -> u32 {
    locks as u32 * 0x1_0001
}

const EITHER: u32 = 0xffff;

const NONE: u16 = u16::MAX;

struct Held<'a> {
    t: &'a Table,
    locks: &'a [[u32; 2]; 128],
    given: &'a [u16; 32],
    /// By head.
    runs: Vec<Run>,
    /// What is held before each routine's RETURNs.
    returns: [u32; 32],
    /// By routine: the head of a run that CALLs it.
    callers: [u16; 32],
    /// Runs to look at, those never looked at, and the routines that have some.
    todo: Places,
    fresh: Places,
    stirred: u32,
}

/// What a TAKE and a GIVE through each handle add and remove; a TAKER adds what lies in `EITHER`.
fn lock_sets(flow: &[u64; 128], handles: usize) -> [[u32; 2]; 128] {
    let mut sets = [[0; 2]; 128];
    for (set, &locks) in sets.iter_mut().zip(&flow[..handles]) {
        let one = locks & locks.wrapping_sub(1) == 0;
        *set = [if one { both(locks as u16) } else { 0 }, both(locks as u16)];
    }
    sets
}

impl<'a> Held<'a> {
    fn new(t: &'a Table, locks: &'a [[u32; 2]; 128], given: &'a [u16; 32]) -> Held<'a> {
        let all = both(t.all_locks());
        let runs = vec![Run { held: all, keep: all, gain: 0, last: 0, next_caller: NONE, routine: 0 }; t.body.len()];
        Held { t, locks, given, runs, returns: [all; 32], callers: [NONE; 32], todo: Places::default(), fresh: t.heads, stirred: 0 }
    }

    /// The run of routine `r` that begins at `head`, looked at for the first time.
    fn fill(&mut self, r: usize, head: usize) {
        let end = self.t.routines[r].end as usize;
        let end = self.t.heads.next(head + 1, end).unwrap_or(end);
        let run = &mut self.runs[head];
        for s in &self.t.body[head..end] {
            if s.op == TAKE {
                run.gain |= self.locks[s.x as usize][0];
            } else if s.op == TAKER {
                run.gain |= self.locks[s.x as usize][0] & EITHER;
            } else if s.op == GIVE {
                run.keep &= !self.locks[s.x as usize][1];
                run.gain &= !self.locks[s.x as usize][1];
            }
        }
        let last = &self.t.body[end - 1];
        if last.op == CALL {
            run.next_caller = std::mem::replace(&mut self.callers[last.x as usize], head as u16);
        }
        run.last = end as u16 - 1;
        run.routine = r as u8;
    }

    /// A way leads to run `head` with this set: whether less is held there now, and the run is to be looked at.
    fn lower(&mut self, head: usize, set: u32) -> bool {
        let run = &mut self.runs[head];
        let lower = run.held & !set != 0;
        if lower {
            run.held &= set;
            self.todo.add(head);
        }
        lower
    }

    /// Looks at the runs of routine `r` that are to be looked at, the lowest first, and then at those that nothing has led to.
    fn settle(&mut self, r: usize) {
        let (first, end) = (self.t.routines[r].first as usize, self.t.routines[r].end as usize);
        self.stirred &= !(1 << r);
        let mut at = first;
        loop {
            while let Some(head) = self.todo.next(at, end) {
                at = self.look(r, head);
            }
            match self.fresh.next(first, end) {
                Some(head) => at = self.look(r, head),
                None => return,
            }
        }
    }

    /// Looks at one run, at a CALL also at the callee's: no run below the answer is to be looked at.
    fn look(&mut self, r: usize, head: usize) -> usize {
        self.todo.remove(head);
        if self.fresh.has(head) {
            self.fresh.remove(head);
            self.fill(r, head);
        }
        let run = self.runs[head];
        let (last, set) = (run.last as usize, run.held & run.keep | run.gain);
        let s = self.t.body[last];
        match s.op {
            RETURN => self.close(r, set),
            JUMP | JUMPZ => {
                if s.op == JUMPZ {
                    self.lower(last + 1, set);
                }
                if self.lower(s.x as usize, set) {
                    return (s.x as usize).min(last + 1);
                }
            }
            CALL => {
                let after = self.call(s.x as usize, set);
                self.todo.remove(head);
                self.lower(last + 1, after);
                if self.stirred >> r & 1 == 1 {
                    self.stirred &= !(1 << r);
                    return self.t.routines[r].first as usize;
                }
            }
            _ => {
                self.lower(last + 1, set);
            }
        }
        last + 1
    }

    /// What is held behind a CALL of `q` before which `set` is.
    fn call(&mut self, q: usize, set: u32) -> u32 {
        if self.lower(self.t.routines[q].first as usize, set) || self.stirred >> q & 1 == 1 {
            self.settle(q);
        }
        self.returns[q] | set & !both(self.given[q])
    }

    /// `set` is held before a RETURN of `r`: where that changes something, the runs that CALL `r` are to be looked at.
    fn close(&mut self, r: usize, set: u32) {
        if self.returns[r] & !set == 0 {
            return;
        }
        self.returns[r] &= set;
        let mut head = self.callers[r];
        while head != NONE {
            let run = &self.runs[head as usize];
            self.todo.add(head as usize);
            self.stirred |= 1 << run.routine;
            head = run.next_caller;
        }
    }

    /// The greatest sets: nothing is held where a thread begins.
    fn solve(mut self) -> Vec<Run> {
        let count = self.t.routines.len();
        for r in members(self.t.routines.iter().fold(1, |all, q| all | q.starts)) {
            self.lower(self.t.routines[r].first as usize, 0);
        }
        self.stirred = !0 >> (32 - count);
        while self.stirred != 0 {
            for k in 0..count {
                let r = self.t.order[k] as usize;
                if self.stirred >> r & 1 == 1 {
                    self.settle(r);
                }
            }
        }
        self.runs
    }
}

/// Routines with a START, or a CALL of such a one.
fn starting(t: &Table) -> u32 {
    let mut found = 0;
    for &r in t.order[..t.routines.len()].iter().rev() {
        let q = &t.routines[r as usize];
        found |= ((q.starts != 0 || q.calls & found != 0) as u32) << r;
    }
    found
}

struct Futures<'a> {
    t: &'a Table,
    flow: &'a [u64; 128],
    effects: &'a [Effect; 32],
    /// Those `starting`.
    needed: u32,
    /// By head of a run: its effect with its future.
    ahead: Vec<Effect>,
    /// Of a walk along the ways: by head of a run when it was visited, and `NONE` when its set is complete; how many were; and those not complete.
    mark: Vec<u16>,
    visits: u16,
    open: Vec<u16>,
    /// By routine: the futures of its CALLs.
    behind: [Effect; 32],
    shared: u64,
}

impl<'a> Futures<'a> {
    fn new(t: &'a Table, flow: &'a [u64; 128], effects: &'a [Effect; 32], needed: u32) -> Futures<'a> {
        let ahead = vec![[0; 2]; if needed == 0 { 0 } else { t.body.len() + 1 }];
        Futures { t, flow, effects, needed, ahead, mark: vec![], visits: 0, open: vec![], behind: [[0; 2]; 32], shared: 0 }
    }

    fn own(&self, s: &Statement) -> Effect {
        match s.op {
            READ => [self.flow[s.x as usize], 0],
            WRITE => [0, self.flow[s.x as usize]],
            CALL | START => self.effects[s.x as usize],
            _ => [0, 0],
        }
    }

    /// What follows statement `last`, the last of a run.
    fn follows(&self, last: usize) -> Effect {
        let s = &self.t.body[last];
        match s.op {
            JUMP => self.ahead[s.x as usize],
            JUMPZ => join(self.ahead[s.x as usize], self.ahead[last + 1]),
            RETURN => [0, 0],
            _ => self.ahead[last + 1],
        }
    }

    /// Statement `s` of routine `r` names `q`, and `follow` may come behind it in `r`.
    fn name(&mut self, r: usize, s: &Statement, follow: Effect) {
        let (q, future) = (s.x as usize, join(follow, self.behind[r]));
        if s.op == START {
            let effect = self.effects[q];
            self.shared |= (effect[0] | effect[1]) & (future[0] | future[1]) & (effect[1] | future[1]);
        } else if s.op == CALL {
            self.behind[q] = join(self.behind[q], future);
        }
    }

    /// The statements from `head` to `last`, downwards, with what may follow them.
    fn walk(&mut self, r: usize, head: usize, last: usize) -> Effect {
        let mut ahead = self.follows(last);
        for s in (head..=last).rev() {
            let s = self.t.body[s];
            if s.op == CALL || s.op == START {
                self.name(r, &s, ahead);
            }
            ahead = join(ahead, self.own(&s));
        }
        ahead
    }

    /// One routine without a jump that goes back: its statements downwards.
    fn downwards(&mut self, r: usize, first: usize, end: usize) {
        let mut next = end;
        while next > first {
            let head = self.t.heads.last(first, next).unwrap_or(first);
            self.ahead[head] = self.walk(r, head, next - 1);
            next = head;
        }
    }

    /// One routine: from each run that CALLs or STARTs along the ways, and then the statements of these runs.
    fn along_ways(&mut self, r: usize, first: usize, end: usize) {
        self.mark.resize(self.t.body.len(), 0);
        let mut at = first;
        while let Some(s) = self.t.naming.next(at, end) {
            let head = self.t.heads.last(first, s + 1).unwrap_or(first);
            if self.mark[head] == 0 {
                self.visit(head, end);
            }
            let last = self.t.heads.next(s + 1, end).unwrap_or(end) - 1;
            self.walk(r, head, last);
            at = last + 1;
        }
    }

    /// Run `head` and what it leads to: runs that lead to each other have one set. Answers the earliest run still open that is reached.
    fn visit(&mut self, head: usize, end: usize) -> u16 {
        let (mine, depth) = (self.visits + 1, self.open.len());
        self.visits = mine;
        self.mark[head] = mine;
        self.open.push(head as u16);
        let last = self.t.heads.next(head + 1, end).unwrap_or(end) - 1;
        self.ahead[head] = self.t.body[head..=last].iter().fold([0; 2], |all, s| join(all, self.own(s)));
        let s = self.t.body[last];
        let mut least = mine;
        if s.op == JUMP || s.op == JUMPZ {
            least = least.min(self.reach(head, s.x as usize, end));
        }
        if s.op != JUMP && s.op != RETURN {
            least = least.min(self.reach(head, last + 1, end));
        }
        if least == mine && self.open.len() == depth + 1 {
            self.open.pop();
            self.mark[head] = NONE;
        } else if least == mine {
            let all = self.open[depth..].iter().fold([0; 2], |all, &h| join(all, self.ahead[h as usize]));
            for h in self.open.drain(depth..) {
                self.ahead[h as usize] = all;
                self.mark[h as usize] = NONE;
            }
        }
        least
    }

    /// Run `head` leads to run `next`.
    fn reach(&mut self, head: usize, next: usize, end: usize) -> u16 {
        let least = if self.mark[next] == 0 { self.visit(next, end) } else { self.mark[next] };
        self.ahead[head] = join(self.ahead[head], self.ahead[next]);
        least
    }

    /// The cells that are shared: routines callers first.
    fn solve(mut self) -> u64 {
        for &r in &self.t.order[..self.t.routines.len()] {
            let q = &self.t.routines[r as usize];
            let (first, end) = (q.first as usize, q.end as usize);
            if self.needed >> r & 1 == 1 && q.back {
                self.along_ways(r as usize, first, end);
            } else if self.needed >> r & 1 == 1 {
                self.downwards(r as usize, first, end);
            }
        }
        self.shared
    }
}

/// What a START can precede: all of these routines, and in others the runs with these heads and the rest of a run behind a START.
struct Preceded<'a> {
    t: &'a Table,
    runs: &'a [Run],
    routines: u32,
    heads: Places,
}

impl<'a> Preceded<'a> {
    /// Routines callers first, so that all CALLs of one are known when it is looked at.
    fn new(t: &'a Table, runs: &'a [Run], starting: u32) -> Preceded<'a> {
        let started = t.routines.iter().fold(0, |all, q| all | q.starts);
        let mut found = Preceded { t, runs, routines: started, heads: Places::default() };
        for &r in if starting == 0 { &[] } else { &t.order[..t.routines.len()] } {
            let q = &t.routines[r as usize];
            if found.routines >> r & 1 == 1 {
                found.routines |= q.calls;
            } else if starting >> r & 1 == 1 {
                found.look(q.first as usize, q.end as usize, starting);
            }
        }
        found
    }

    /// One routine: from each START and each CALL that reaches one along the ways.
    fn look(&mut self, first: usize, end: usize, starting: u32) {
        let mut at = first;
        while let Some(s) = self.t.naming.next(at, end) {
            at = s + 1;
            let named = &self.t.body[s];
            if named.op == START {
                let last = self.t.heads.next(at, end).unwrap_or(end) - 1;
                self.call(last);
                self.follow(last);
                at = last + 1;
            } else if starting >> named.x & 1 == 1 {
                self.follow(s);
            }
        }
    }

    /// A START can precede statement `s`: if that is a CALL, all of what it names.
    fn call(&mut self, s: usize) {
        if self.t.body[s].op == CALL {
            self.routines |= 1 << self.t.body[s].x;
        }
    }

    /// The runs that may follow `last`, the last statement of a run.
    fn follow(&mut self, mut last: usize) {
        loop {
            let s = self.t.body[last];
            if s.op == JUMPZ && !self.heads.has(s.x as usize) {
                let target = self.enter(s.x as usize);
                self.follow(target);
            }
            let next = if s.op == JUMP { s.x as usize } else { last + 1 };
            if s.op == RETURN || self.heads.has(next) {
                return;
            }
            last = self.enter(next);
        }
    }

    /// A START can precede the run at `head`: its last statement.
    fn enter(&mut self, head: usize) -> usize {
        self.heads.add(head);
        let last = self.runs[head].last as usize;
        self.call(last);
        last
    }

    fn has(&self, head: usize) -> bool {
        self.routines >> self.runs[head].routine & 1 == 1 || self.heads.has(head)
    }
}

/// By cell, eight together; and the stray GIVEs.
struct Findings {
    reads: [[u16; 8]; 8],
    writes: [[u16; 8]; 8],
    common: [[u16; 8]; 8],
    strays: usize,
    stray: Places,
}

impl Findings {
    /// The accesses through a handle that may refer to these of the eight cells from 8 * `eight` on.
    fn count(&mut self, eight: usize, cells: u8, used: [u16; 2], common: u16) {
        let (reads, writes, locks) = (&mut self.reads[eight], &mut self.writes[eight], &mut self.common[eight]);
        let masks = [1, 2, 4, 8, 16, 32, 64, 128].map(|bit: u16| if cells as u16 & bit == bit { !0 } else { 0 });
        for k in 0..8 {
            reads[k] += used[0] & masks[k];
            writes[k] += used[1] & masks[k];
            locks[k] &= common | !masks[k];
        }
    }
}

/// Counts and common locks by handle, then by cell.
fn findings(t: &Table, flow: &[u64; 128], locks: &[[u32; 2]; 128], runs: &[Run], preceded: &Preceded) -> Findings {
    let all = t.all_locks();
    let mut found = Findings { reads: [[0; 8]; 8], writes: [[0; 8]; 8], common: [[all; 8]; 8], strays: 0, stray: Places::default() };
    let (mut common, mut head) = ([all; 128], 0);
    while head < t.body.len() {
        let (mut held, end) = (runs[head].held, runs[head].last as usize + 1);
        // All locks while no START can precede the statement.
        let mut left_out = if preceded.has(head) { 0 } else { all };
        for s in head..end {
            let (op, x) = (t.body[s].op, t.body[s].x as usize);
            match op {
                READ => common[x] &= held as u16 | left_out,
                WRITE => common[x] &= (held >> 16) as u16 | left_out,
                START => left_out = 0,
                TAKE => held |= locks[x][0],
                TAKER => held |= locks[x][0] & EITHER,
                GIVE => {
                    if locks[x][0] & held & EITHER == 0 {
                        found.stray.add(s);
                        found.strays += 1;
                    }
                    held &= !locks[x][1];
                }
                _ => {}
            }
        }
        head = end;
    }
    for (h, handle) in t.handles.iter().enumerate() {
        let used = [handle.uses[READ as usize], handle.uses[WRITE as usize]];
        let mut cells = if used == [0; 2] { 0 } else { flow[h] };
        while cells != 0 {
            let eight = cells.trailing_zeros() as usize / 8;
            found.count(eight, (cells >> (8 * eight)) as u8, used, common[h]);
            cells &= !(0xff << (8 * eight));
        }
    }
    found
}

/// Puts `n`, which is below 100,000, into field `j`.
#[inline(always)]
fn put(line: &mut Line, j: usize, n: usize) {
    let at = 6 * j;
    if n < 1000 {
        line[at + 2..at + 6].copy_from_slice(&SMALL[n]);
    } else {
        line[at + 1..at + 3].copy_from_slice(&SMALL[n / 1000][2..]);
        for (k, unit) in [100, 10, 1].into_iter().enumerate() {
            line[at + 3 + k] = b'0' + (n / unit % 10) as u8;
        }
    }
}

/// Prints the report, if it fits: its bytes.
fn print(out: &mut [u8], cells: usize, shared: u64, found: &Findings) -> Option<usize> {
    let bytes = LINE * (cells + found.strays + 1);
    let (lines, _) = out.get_mut(..bytes)?.as_chunks_mut::<LINE>();
    let (cell_lines, others) = lines.split_at_mut(cells);
    let mut unguarded = 0;
    for (x, line) in cell_lines.iter_mut().enumerate() {
        let (reads, writes, common) = (found.reads[x / 8][x % 8], found.writes[x / 8][x % 8], found.common[x / 8][x % 8]);
        let shared = (shared >> x & 1) as usize;
        let bad = (shared == 1 && common == 0) as usize;
        unguarded += bad;
        *line = ZEROS;
        for (j, n) in [51, x, reads as usize, writes as usize, shared, common as usize, bad].into_iter().enumerate() {
            put(line, j, n);
        }
    }
    let mut s = 0;
    for line in &mut others[..found.strays] {
        s = found.stray.next(s, 512)?;
        *line = ZEROS;
        put(line, 0, 52);
        put(line, 1, s);
        s += 1;
    }
    let last = others.last_mut()?;
    *last = ZEROS;
    put(last, 0, 59);
    put(last, 1, unguarded);
    put(last, 2, found.strays);
    Some(bytes)
}

/// The report: number, line, bytes.
pub fn report(text: &[u8], out: &mut [u8]) -> (u32, u32, usize) {
    report_in_phases(text, out, |_| {})
}

/// The same, telling each phase's name at its end.
#[inline(always)]
pub fn report_in_phases(text: &[u8], out: &mut [u8], mut ended: impl FnMut(&'static str)) -> (u32, u32, usize) {
    let t = match read(text) {
        Ok(t) => t,
        Err((number, line)) => return (number, line, 0),
    };
    ended("read");
    let flow = flow(&t);
    ended("flow");
    let (effects, given) = effects(&t, &flow);
    ended("effects and given-up locks");
    let locks = lock_sets(&flow, t.handles.len());
    let runs = Held::new(&t, &locks, &given).solve();
    ended("held");
    let starting = starting(&t);
    let shared = Futures::new(&t, &flow, &effects, starting).solve();
    ended("futures");
    let found = findings(&t, &flow, &locks, &runs, &Preceded::new(&t, &runs, starting));
    ended("findings");
    let answer = print(out, t.cells, shared, &found).map_or((13, 0, 0), |bytes| (0, 0, bytes));
    ended("print");
    answer
}
