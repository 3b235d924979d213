//! Times turns of many threads at a plain ticket lock, which is served in order and proves nothing. The words: how many
//! threads; how many turns each; how many steps of arithmetic a turn has. It prints the nanoseconds that all took together.

use std::cell::UnsafeCell;
use std::sync::atomic::{AtomicU64, Ordering};
use std::time::Instant;

/// A word with a cache line of its own.
#[repr(align(64))]
struct Word(AtomicU64);

struct TicketLock {
    ticket: Word,
    serving: Word,
    value: UnsafeCell<u64>,
}

unsafe impl Sync for TicketLock {}

impl TicketLock {
    fn turn(&self, steps: u64) {
        let ticket = self.ticket.0.fetch_add(1, Ordering::Relaxed);
        let mut looks = 0;
        while self.serving.0.load(Ordering::Acquire) != ticket {
            looks += 1;
            if looks % 2000 == 0 {
                std::thread::yield_now();
            } else {
                std::hint::spin_loop();
            }
        }
        let value = unsafe { &mut *self.value.get() };
        *value = stirred(*value, steps);
        self.serving.0.store(ticket + 1, Ordering::Release);
    }
}

/// The steps of the proved program.
fn stirred(mut state: u64, steps: u64) -> u64 {
    for _ in 0..steps {
        state ^= state << 13;
        state ^= state >> 7;
        state ^= state << 17;
    }
    state
}

fn main() {
    let words: Vec<u64> = std::env::args().skip(1).map(|word| word.parse().expect("give numbers")).collect();
    let [threads, turns, steps] = words[..] else { panic!("give threads, turns and steps") };
    let lock = TicketLock { ticket: Word(AtomicU64::new(0)), serving: Word(AtomicU64::new(0)), value: UnsafeCell::new(1) };
    let began = Instant::now();
    std::thread::scope(|scope| {
        for _ in 0..threads {
            scope.spawn(|| (0..turns).for_each(|_| lock.turn(steps)));
        }
    });
    println!("{} {}", lock.value.into_inner(), began.elapsed().as_nanos());
}
