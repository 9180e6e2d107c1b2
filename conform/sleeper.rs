//! A reader and a writer at the Rust crate's writer-preferring lock, on threads of their own and without stepping: the writer's closure
//! sleeps by the system's futex, as the crate means it to. Counts the rounds in which the writer slept at a free lock, with nobody left
//! who would wake it. It would sleep for ever, but that its sleep is cut short after 100 ms.
//!
//!     conform/out/sleeper SECONDS

use iceoryx2_pal_concurrency_sync::WaitAction;
use iceoryx2_pal_concurrency_sync::strategy::rwlock::RwLockWriterPreference;
use std::hint::spin_loop;
use std::sync::atomic::{AtomicU64, Ordering::SeqCst};
use std::time::{Duration, Instant};

unsafe extern "C" {
    fn syscall(number: i64, ...) -> i64;
}
const FUTEX: i64 = 202;
const WAIT_PRIVATE: i64 = 128;
const WAKE_PRIVATE: i64 = 129;
const LONG: Duration = Duration::from_millis(100);

/// Sleeps while the word holds this, until it is woken; whether it slept for long. A futex is the low 32 bits of a word.
fn sleeps_long(word: &AtomicU64, seen: u64) -> bool {
    let limit = [0i64, LONG.as_nanos() as i64];
    let start = Instant::now();
    unsafe { syscall(FUTEX, word.as_ptr(), WAIT_PRIVATE, seen as u32 as u64, limit.as_ptr(), 0, 0) };
    start.elapsed() >= LONG
}

fn wake(word: &AtomicU64, most: i64) {
    unsafe { syscall(FUTEX, word.as_ptr(), WAKE_PRIVATE, most, 0, 0, 0) };
}

/// In a cache line that no other lock is in.
#[repr(align(64))]
struct Alone(RwLockWriterPreference);

fn await_turn(turn: &AtomicU64, wanted: u64) {
    while turn.load(SeqCst) != wanted {
        spin_loop();
    }
}

fn main() {
    let seconds = std::env::args().nth(1).map_or(10, |seconds| seconds.parse().expect("seconds"));
    let end = Instant::now() + Duration::from_secs(seconds);
    let (mut rounds, mut asleep, mut random) = (0u64, 0u64, 1u64);
    // For how many nanoseconds the writer spins until its closure is asked, at least.
    let spins = AtomicU64::new(100_000);
    while Instant::now() < end {
        let locks: Vec<_> = (0..1000).map(|_| Alone(RwLockWriterPreference::new())).collect();
        // The round that the writer is in, that the reader begins, and has ended; and how often the writer slept on.
        let [writer, begun, left, slept] = [const { AtomicU64::new(0) }; 4];
        std::thread::scope(|scope| {
            scope.spawn(|| {
                for (round, Alone(lock)) in (1..).zip(&locks) {
                    writer.store(round, SeqCst);
                    await_turn(&begun, round);
                    let start = Instant::now();
                    let sleep = |word: &AtomicU64, seen: &u64| {
                        spins.fetch_min(start.elapsed().as_nanos() as u64, SeqCst);
                        // The reader has left, so its add is made. If the count is still the one told, no wake will come.
                        if sleeps_long(word, *seen) && left.load(SeqCst) == round && word.load(SeqCst) == *seen {
                            slept.fetch_add(1, SeqCst);
                        }
                        WaitAction::Continue
                    };
                    lock.write_lock(sleep, |word| wake(word, 1), |word| wake(word, i32::MAX as i64));
                }
            });
            for (round, Alone(lock)) in (1..).zip(&locks) {
                lock.read_lock(|_, _| unreachable!());
                await_turn(&writer, round);
                // It leaves at about the end of the writer's spins.
                random = random.wrapping_mul(6_364_136_223_846_793_005).wrapping_add(1);
                let stays = Duration::from_nanos(spins.load(SeqCst) - 100 + (random >> 32) % 700);
                begun.store(round, SeqCst);
                let start = Instant::now();
                while start.elapsed() < stays {
                    spin_loop();
                }
                lock.unlock(|word| wake(word, 1), |word| wake(word, i32::MAX as i64));
                left.store(round, SeqCst);
            }
        });
        rounds += locks.len() as u64;
        asleep += slept.into_inner();
    }
    println!("in {asleep} of {rounds} rounds the writer slept at a free lock");
}
