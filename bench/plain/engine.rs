//! The plain engine.
use super::*;

/// The engine: number and line; answers and cells as the documents say.
pub fn run(text: &[u8], schedule: &[u8], answers: &mut [u8], cells: &mut [i32]) -> (u32, u32) {
    let t = match read(text) {
        Ok(t) => t,
        Err(refusal) => return refusal,
    };
    let (count, body) = (t.cells, &t.body);
    if answers.len() < schedule.len() || cells.len() < count {
        return (13, 0);
    }
    let mut from = [0usize; 32];
    for (base, q) in from.iter_mut().zip(&t.routines) {
        *base = q.handle as usize;
    }
    let mut frames = vec![[[0u16; 10]; 32]; 16];
    let (mut depth, mut accumulator, mut started) = ([0usize; 16], [0i32; 16], 1);
    // By lock: its readers as bits, and above them its writer.
    let mut holds = [0u32; 16];
    cells[..count].fill(0);
    let open = |frame: &mut [u16; 10], q: usize, arguments: [u16; 4]| {
        frame[0] = q as u16;
        let routine = &t.routines[q];
        frame[1] = routine.first;
        let own = &t.handles[routine.handle as usize..][..routine.handles as usize];
        for (k, h) in own.iter().enumerate() {
            frame[2 + k] = if h.local { h.start as u16 } else { arguments[k] };
        }
    };
    open(&mut frames[0][0], 0, [0; 4]);
    depth[0] = 1;
    for (i, &n) in schedule.iter().enumerate() {
        let n = n as usize;
        answers[i] = if n >= started {
            14
        } else if depth[n] == 0 {
            15
        } else {
            let frame = &mut frames[n][depth[n] - 1];
            let l = &body[frame[1] as usize];
            let base = from[frame[0] as usize];
            let slot = |x: usize| 2 + x - base;
            frame[1] += 1;
            match l.op {
                READ => accumulator[n] = cells[frame[slot(l.x as usize)] as usize],
                WRITE => cells[frame[slot(l.x as usize)] as usize] = accumulator[n],
                SET => accumulator[n] = l.x,
                ADD => accumulator[n] = accumulator[n].saturating_add(l.x),
                POINT => frame[slot(l.x as usize)] = frame[slot(l.with[0] as usize)],
                JUMP => frame[1] = l.x as u16,
                JUMPZ => {
                    if accumulator[n] == 0 {
                        frame[1] = l.x as u16
                    }
                }
                RETURN => depth[n] -= 1,
                _ => {}
            }
            match l.op {
                TAKE => {
                    let k = frame[slot(l.x as usize)] as usize;
                    if holds[k] == 0 {
                        holds[k] = 0x1_0000 << n;
                        0
                    } else {
                        frame[1] -= 1;
                        16
                    }
                }
                TAKER => {
                    let k = frame[slot(l.x as usize)] as usize;
                    if holds[k] & (0xffff_0000 | 1 << n) == 0 {
                        holds[k] |= 1 << n;
                        0
                    } else {
                        frame[1] -= 1;
                        16
                    }
                }
                GIVE => {
                    let k = frame[slot(l.x as usize)] as usize;
                    if holds[k] >> n & 0x1_0001 != 0 {
                        holds[k] &= !(0x1_0001 << n);
                        0
                    } else {
                        frame[1] -= 1;
                        17
                    }
                }
                CALL | START => {
                    let q = l.x as usize;
                    let mut passed = [0; 4];
                    for k in 0..t.routines[q].parameters as usize {
                        passed[k] = frame[slot(l.with[k] as usize)];
                    }
                    if l.op == START && started == 16 {
                        frame[1] -= 1;
                        18
                    } else if l.op == CALL {
                        depth[n] += 1;
                        open(&mut frames[n][depth[n] - 1], q, passed);
                        0
                    } else {
                        open(&mut frames[started][0], q, passed);
                        depth[started] = 1;
                        started += 1;
                        0
                    }
                }
                _ => 0,
            }
        };
    }
    (0, 0)
}
