//! The Rust crate's locks, and those of Rust's std, measured as `crates/bench_contended` measures: the same work, threads and columns.
//! The crate's closures yield, or call the system's futex.
//!
//!     contended MILLISECONDS

use iceoryx2_pal_concurrency_sync::WaitAction;
use iceoryx2_pal_concurrency_sync::strategy::mutex::Mutex;
use iceoryx2_pal_concurrency_sync::strategy::rwlock::RwLockWriterPreference;
use std::hint::black_box;
use std::sync::atomic::{AtomicBool, AtomicU64, Ordering::SeqCst};
use std::thread;
use std::time::{Duration, Instant};

unsafe extern "C" {
    fn syscall(number: i64, ...) -> i64;
    fn clock_gettime(clock: i32, time: *mut [i64; 2]) -> i32;
}
const FUTEX: i64 = 202;
const WAIT_PRIVATE: i64 = 128;
const WAKE_PRIVATE: i64 = 129;
const PROCESS_CPU: i32 = 2;

/// Sleeps while the low half of the word is this, until it is woken or for so long.
fn park(word: &AtomicU64, seen: u64, most: Option<Duration>) -> WaitAction {
    let limit = most.map(|most| [most.as_secs() as i64, most.subsec_nanos() as i64]);
    let limit = limit.as_ref().map_or(std::ptr::null(), |limit| limit.as_ptr());
    unsafe { syscall(FUTEX, word.as_ptr(), WAIT_PRIVATE, seen as u32 as u64, limit, 0, 0) };
    WaitAction::Continue
}

/// A writer's wake gets lost where the last reader leaves between its look and its load: so it sleeps a millisecond at most.
const MOST: Option<Duration> = Some(Duration::from_millis(1));

fn wake(word: &AtomicU64, most: i64) {
    unsafe { syscall(FUTEX, word.as_ptr(), WAKE_PRIVATE, most, 0, 0, 0) };
}

fn process_cpu_time() -> u64 {
    let mut time = [0i64; 2];
    unsafe { clock_gettime(PROCESS_CPU, &mut time) };
    time[0] as u64 * 1_000_000_000 + time[1] as u64
}

/// Steps of which each wants the one before.
struct Work {
    steps: u64,
    state: u64,
    operations: u64,
}

impl Work {
    fn new(steps: u64) -> Work {
        Work { steps, state: 1, operations: 0 }
    }

    #[inline(always)]
    fn go(&mut self) {
        let mut state = self.state;
        for _ in 0..self.steps {
            let once = state ^ (state << 13);
            let twice = once ^ (once >> 7);
            state = twice ^ (twice << 17);
        }
        self.state = state;
    }

    fn is_to_write(&self) -> bool {
        self.operations % 10 == 9
    }
}

/// How many steps take a microsecond, as the fastest of ten times tells.
fn steps_in_a_microsecond() -> u64 {
    let mut work = Work::new(1_000_000);
    let least = (0..10).map(|_| {
        let start = Instant::now();
        work.go();
        start.elapsed().as_nanos() as u64
    });
    let least = least.min().unwrap_or(1);
    black_box(work.state);
    1_000_000_000 / least.max(1)
}

/// Prints the row of so many threads that operate until the time is over.
fn race<F: Fn(&mut Work) + Sync>(name: &str, threads: usize, section: u64, steps: u64, millis: u64, operate: F) {
    let over = AtomicBool::new(false);
    let (start, used) = (Instant::now(), process_cpu_time());
    let counts: Vec<u64> = thread::scope(|scope| {
        let crowd: Vec<_> = (0..threads)
            .map(|_| {
                scope.spawn(|| {
                    let mut work = Work::new(steps);
                    while !over.load(SeqCst) {
                        operate(&mut work);
                        work.operations += 1;
                    }
                    black_box(work.state);
                    work.operations
                })
            })
            .collect();
        thread::sleep(Duration::from_millis(millis));
        over.store(true, SeqCst);
        crowd.into_iter().map(|one| one.join().unwrap()).collect()
    });
    let (took, used) = (start.elapsed().as_nanos(), process_cpu_time() - used);
    let all: u64 = counts.iter().sum();
    let (least, most) = (counts.iter().min().unwrap(), counts.iter().max().unwrap());
    let per_second = all as u128 * 1_000_000_000 / took;
    let (nanos, least_to_most) = (used / all.max(1), least * 100 / (*most).max(1));
    println!("{name}\t{threads}\t{section}\t{per_second}\t{nanos}\t{least_to_most}");
}

/// Prints the rows of so many threads, with work of so many steps inside a critical section and outside.
fn rows(threads: usize, section: u64, steps: u64, millis: u64) {
    let number = std::sync::Mutex::new(0u64);
    race("Rust's std mutex", threads, section, steps, millis, |work| {
        let mut held = number.lock().unwrap();
        work.go();
        *held = held.wrapping_add(1);
        drop(held);
        work.go();
    });
    let mutex = Mutex::new();
    race("Rust crate's mutex, yielding", threads, section, steps, millis, |work| {
        mutex.lock(|_, _| {
            thread::yield_now();
            WaitAction::Continue
        });
        work.go();
        mutex.unlock(|_| ());
        work.go();
    });
    let mutex = Mutex::new();
    race("Rust crate's mutex, futex", threads, section, steps, millis, |work| {
        mutex.lock(|word, seen| park(word, *seen, None));
        work.go();
        mutex.unlock(|word| wake(word, 1));
        work.go();
    });
    let number = std::sync::RwLock::new(0u64);
    race("Rust's std rwlock, nine reads to a write", threads, section, steps, millis, |work| {
        if work.is_to_write() {
            let mut held = number.write().unwrap();
            work.go();
            *held = held.wrapping_add(1);
        } else {
            let _held = number.read().unwrap();
            work.go();
        }
        work.go();
    });
    let lock = RwLockWriterPreference::new();
    let wake_all = |word: &AtomicU64| wake(word, i32::MAX as i64);
    race("Rust crate's writer-preferring lock, futex, nine reads to a write", threads, section, steps, millis, |work| {
        if work.is_to_write() {
            lock.write_lock(|word, seen| park(word, *seen, MOST), |word| wake(word, 1), wake_all);
        } else {
            lock.read_lock(|word, seen| park(word, *seen, None));
        }
        work.go();
        lock.unlock(|word| wake(word, 1), wake_all);
        work.go();
    });
}

fn main() {
    let millis = std::env::args().nth(1).and_then(|text| text.parse().ok());
    let Some(millis) = millis else {
        eprintln!("bad number of milliseconds");
        std::process::exit(2);
    };
    let steps = steps_in_a_microsecond();
    for section in [0, 100, 1000] {
        for threads in [1, 2, 4, 8] {
            rows(threads, section, steps * section / 1000, millis);
        }
    }
    let processors = thread::available_parallelism().map_or(0, |it| it.get());
    println!("60 rows of {millis} ms each, on {processors} processors; 1000 ns of work were {steps} steps");
}
