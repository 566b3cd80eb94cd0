//! Work in registers alone, the same by each of so many threads: registers THREADS. How much more four threads do of it than
//! one says what a machine has for threads at that time: eight sums that do not wait for one another keep all that adds in a
//! core busy, so two that run on one core, of this machine or of another on the same host, share it. It is for x86-64.

use std::arch::asm;
use std::env;
use std::thread;

const ROUNDS: u32 = 100_000_000;

fn add() -> u64 {
    let mut sums = [0u64; 8];
    let [a, b, c, d, e, f, g, h] = &mut sums;
    for _ in 0..ROUNDS {
        // SAFETY: it adds to registers, and touches no memory.
        unsafe {
            asm!(
                "add {0}, 1", "add {1}, 1", "add {2}, 1", "add {3}, 1",
                "add {4}, 1", "add {5}, 1", "add {6}, 1", "add {7}, 1",
                inout(reg) *a, inout(reg) *b, inout(reg) *c, inout(reg) *d,
                inout(reg) *e, inout(reg) *f, inout(reg) *g, inout(reg) *h,
                options(pure, nomem, nostack),
            );
        }
    }
    sums.iter().sum()
}

fn main() {
    let threads: usize = env::args().nth(1).and_then(|word| word.parse().ok()).expect("registers THREADS");
    let workers: Vec<_> = (0..threads).map(|_| thread::spawn(add)).collect();
    for worker in workers {
        assert_eq!(worker.join().unwrap(), 8 * u64::from(ROUNDS));
    }
}
