// The proved reader against a plain reader in Rust, in one run: the largest text, and the one that is worst for check 12.
#[allow(dead_code)]
#[path = "../plain.rs"]
mod plain;
use std::time::Instant;

extern "C" {
    fn table_verdict(text: *const u8, length: usize) -> u64;
}

fn proved(text: &[u8]) -> u64 {
    unsafe { table_verdict(text.as_ptr(), text.len()) }
}

fn plainly(text: &[u8]) -> u64 {
    match plain::read(text) {
        Ok(_) => 0,
        Err((number, line)) => (number as u64) << 48 | (line as u64) << 32,
    }
}

// The least of some runs of `f`, in microseconds a call.
fn best(f: fn(&[u8]) -> u64, text: &[u8]) -> f64 {
    let mut least = f64::MAX;
    let mut sum = 0;
    for _ in 0..40 {
        let begin = Instant::now();
        for _ in 0..200 {
            sum += f(std::hint::black_box(text));
        }
        least = least.min(begin.elapsed().as_secs_f64() * 1e6 / 200.0);
    }
    std::hint::black_box(sum);
    least
}

fn main() {
    for path in std::env::args().skip(1) {
        let text = std::fs::read(&path).expect(&path);
        assert_eq!(proved(&text), plainly(&text), "{}", path);
        let (a, b) = (best(proved, &text), best(plainly, &text));
        let name = path.rsplit('/').next().unwrap();
        println!("{name}: {} bytes, {}, proved {a:.1} us, plain Rust {b:.1} us, ratio {:.2}", text.len(), if plainly(&text) == 0 { "accepted" } else { "refused" }, a / b);
    }
}
