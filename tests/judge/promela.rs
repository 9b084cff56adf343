//! A table as a Promela model, for Spin to search all its states.
//!
//! Why the model is the machine of documents 01 and 02:
//! - Each thread number is a process of its own, so Spin's scheduling gives every order of steps.
//! - A step is one d_step, so no other thread comes between; its guard is the thread's next statement, and for TAKE also
//!   that the lock is free, for TAKER that it has no writer and this thread is no reader of it. So a refused step (14, 15, 16) is one that is not taken, and the state stays.
//! - The state is the machine's and nothing more: each frame's handle values and next statement, accumulators, cells, of each
//!   lock its writer and its readers as the bits of one number. What a closed frame held is set to 0. So both searches must count the same states, but for the one
//!   before thread 0 begins.
//! - A READ or WRITE can always step. So if two threads stand before conflicting accesses, the step of one of them is searched
//!   from that very state, and its assertion looks at the other threads before it moves. GIVE the same: asserted, not waited for.
//! - Promela's int is C's, of 32 bits; ADD stops at both ends before the sum is made, so no sum leaves the range.
//! - A START with THREADS threads started waits; THREADS is chosen above what is compared.
use crate::document::{Op, Table};
use std::fmt::Write;

/// What a handle refers to in the newest frame of the process's own thread.
fn value(t: &Table, h: usize) -> String {
    format!("value[FRAME(_pid) + {}]", h - t.routines[t.handles[h].routine].handles[0])
}

/// The values of a new frame of routine `q` at `frame`; arguments are read at the frame `from`.
fn opened(t: &Table, q: usize, arguments: &[usize; 4], frame: &str, from: &str) -> String {
    let mut out = String::new();
    for (k, &h) in t.routines[q].handles.iter().enumerate() {
        if t.handles[h].parameter {
            let g = arguments[k] - t.routines[t.handles[arguments[k]].routine].handles[0];
            write!(out, "value[{frame} + {k}] = value[{from} + {g}]; ").unwrap();
        } else {
            write!(out, "value[{frame} + {k}] = {}; ", t.handles[h].start).unwrap();
        }
    }
    out
}

/// Frames that may lie under the newest: the longest chain of CALLs.
fn depth(t: &Table, q: usize) -> usize {
    let below = t.body(q).filter_map(|s| if let Op::Call(r, _) = t.statements[s] { Some(1 + depth(t, r)) } else { None });
    below.max().unwrap_or(0)
}

/// A RETURN: the frame's values to 0, then the frame below, or the end of the thread.
fn returned(t: &Table, r: usize) -> String {
    let mut out = String::new();
    for k in 0..t.routines[r].handles.len() {
        write!(out, "value[FRAME(_pid) + {k}] = 0; ").unwrap();
    }
    out + "if :: level[_pid] == 0 -> at[_pid] = 0 :: else -> level[_pid]--; at[_pid] = back[_pid * DEPTH + level[_pid]]; back[_pid * DEPTH + level[_pid]] = 0 fi"
}

/// ADD: at an end if the number leads past it, else the sum.
fn added(v: i32) -> String {
    if v < 0 {
        format!("acc[_pid] = (acc[_pid] < {} -> -2147483647 - 1 : acc[_pid] + ({v}))", -2_147_483_648 - v as i64)
    } else {
        format!("acc[_pid] = (acc[_pid] > {} -> 2147483647 : acc[_pid] + {v})", 2_147_483_647 - v as i64)
    }
}

/// The step of statement `s`: what its guard adds, and what it does. `at` is a statement plus 1, and 0 where there is none.
fn step(t: &Table, s: usize) -> (String, String) {
    let on = format!("at[_pid] = {}", s + 2);
    let always = |work: String| (String::new(), work);
    match t.statements[s] {
        Op::Read(h) => always(format!("look({}, false); acc[_pid] = cell[{}]; {on}", value(t, h), value(t, h))),
        Op::Write(h) => always(format!("look({}, true); cell[{}] = acc[_pid]; {on}", value(t, h), value(t, h))),
        Op::Set(v) => always(format!("acc[_pid] = ({v}); {on}")),
        Op::Add(v) => always(format!("{}; {on}", added(v))),
        Op::Take(h) => (format!(" && FREE({})", value(t, h)), format!("writer[{}] = _pid + 1; {on}", value(t, h))),
        Op::Taker(h) => (format!(" && READABLE({})", value(t, h)), format!("readers[{}] = readers[{}] | (1 << _pid); {on}", value(t, h), value(t, h))),
        Op::Give(h) => always(format!("give({}); {on}", value(t, h))),
        Op::Point(h, g) => always(format!("{} = {}; {on}", value(t, h), value(t, g))),
        Op::Call(q, a) => {
            let new = opened(t, q, &a, "FRAME(_pid)", "FRAME(_pid) - HANDLES");
            always(format!("back[_pid * DEPTH + level[_pid]] = {}; level[_pid]++; {new}at[_pid] = {}", s + 2, t.routines[q].first + 1))
        }
        Op::Start(q, a) => {
            let new = opened(t, q, &a, "FRAME(started)", "FRAME(_pid)");
            (" && started < THREADS".into(), format!("{new}at[started] = {}; started++; {on}", t.routines[q].first + 1))
        }
        Op::Jump(x) => always(format!("at[_pid] = {}", x + 1)),
        Op::JumpZero(x) => always(format!("if :: acc[_pid] == 0 -> at[_pid] = {} :: else -> {on} fi", x + 1)),
        Op::Return => always(returned(t, t.owner[s])),
    }
}

/// The look of a thread that is about to access `c`: no other thread may stand before an access of it if one of the two writes.
fn look(t: &Table) -> String {
    let mut out = String::from("inline look(c, writing) {\n    do\n    :: m == THREADS -> break\n    :: m < THREADS ->\n        if\n");
    for s in 0..t.statements.len() {
        let (h, safe) = match t.statements[s] {
            Op::Read(h) => (h, "!(writing) || "),
            Op::Write(h) => (h, ""),
            _ => continue,
        };
        let k = h - t.routines[t.handles[h].routine].handles[0];
        writeln!(out, "        :: m != _pid && at[m] == {} -> assert({safe}value[FRAME(m) + {k}] != c)", s + 1).unwrap();
    }
    out + "        :: else\n        fi;\n        m++\n    od;\n    m = 0\n}\n"
}

pub fn model(t: &Table, threads: usize) -> String {
    assert!(threads <= 8, "the readers of a lock are bits of a byte");
    let depth = (0..t.routines.len()).map(|q| depth(t, q)).max().unwrap_or(0) + 1;
    let handles = t.routines.iter().map(|r| r.handles.len()).max().unwrap_or(0).max(1);
    let mut out = format!("#define THREADS {threads}\n#define DEPTH {depth}\n#define HANDLES {handles}\n");
    out += "#define FRAME(n) (((n) * DEPTH + level[n]) * HANDLES)\n";
    out += "#define READS(l) ((readers[l] >> _pid) & 1)\n";
    out += "#ifdef NO_WAIT\n#define FREE(l) true\n#define READABLE(l) true\n#else\n";
    out += "#define FREE(l) (writer[l] == 0 && readers[l] == 0)\n#define READABLE(l) (writer[l] == 0 && !READS(l))\n#endif\n";
    write!(out, "int cell[{}];\nbyte writer[{1}];\nbyte readers[{1}];\nint acc[THREADS];\nshort at[THREADS];\nbyte level[THREADS];\n", t.cells, t.locks.max(1)).unwrap();
    out += "short back[THREADS * DEPTH];\nbyte value[THREADS * DEPTH * HANDLES];\nbyte started;\nbyte m;\n";
    out += "inline give(l) {\n    assert(writer[l] == _pid + 1 || READS(l));\n    if\n    :: writer[l] == _pid + 1 -> writer[l] = 0\n    :: else -> readers[l] = readers[l] & ~(1 << _pid)\n    fi\n}\n";
    out += &look(t);
    out += "active [THREADS] proctype thread() {\nend:\n    do\n";
    writeln!(out, "    :: d_step {{ _pid == 0 && started == 0 -> {}at[0] = 1; started = 1 }}", opened(t, 0, &[0; 4], "FRAME(0)", "")).unwrap();
    for s in 0..t.statements.len() {
        let (guard, work) = step(t, s);
        writeln!(out, "    :: d_step {{ at[_pid] == {}{guard} -> {work} }}", s + 1).unwrap();
    }
    out + "    od\n}\n"
}
