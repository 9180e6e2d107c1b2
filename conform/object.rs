//! The objects of the Rust crate, and their calls as a schedule text names them.
use crate::text::Kind;
use iceoryx2_pal_concurrency_sync::atomic::{Atomic, internal::AtomicInteger};
use iceoryx2_pal_concurrency_sync::lazy_lock::LazyLock;
use iceoryx2_pal_concurrency_sync::once::Once;
use iceoryx2_pal_concurrency_sync::spin_lock::{SpinLock, SpinLockGuard};
use iceoryx2_pal_concurrency_sync::strategy::rwlock::{RwLockReaderPreference, RwLockWriterPreference};
use iceoryx2_pal_concurrency_sync::strategy::{
    barrier::Barrier, condition_variable::ConditionVariable, mutex::Mutex, semaphore::Semaphore,
};
use iceoryx2_pal_concurrency_sync::{WaitAction, WaitResult};
use std::sync::Mutex as StdMutex;
use std::sync::atomic::Ordering::SeqCst;
use words::words::{Act, choice, event, take_note, wait_aborts};

type Guard = SpinLockGuard<'static, ()>;

pub enum Object {
    Mutex(Mutex),
    Spin(SpinLock<()>, Vec<StdMutex<Option<Guard>>>),
    Semaphore(Semaphore),
    Barrier(Barrier),
    Reader(RwLockReaderPreference),
    Writer(RwLockWriterPreference),
    Condvar(ConditionVariable, Mutex),
    Once(Once),
    Lazy(LazyLock<u64, Box<dyn FnOnce() -> u64 + Send>>),
    U64(Atomic<u64>),
    U128(Atomic<u128>),
    I64(Atomic<i64>),
    I128(Atomic<i128>),
}

fn wait<W>(_: &W, seen: &u64) -> WaitAction {
    if wait_aborts(*seen) { WaitAction::Abort } else { WaitAction::Continue }
}

fn wake_one<W>(_: &W) {
    event(Act::WakeOne)
}

fn wake_all<W>(_: &W) {
    event(Act::WakeAll)
}

fn told(result: WaitResult) -> String {
    match (result, take_note()) {
        (WaitResult::Success, "held") => "interrupted held",
        (WaitResult::Success, _) => "success",
        (WaitResult::Interrupted, _) => "interrupted",
    }
    .into()
}

fn done(_: ()) -> String {
    "done".into()
}

/// A call of an atomic, whose numbers are given, told and chosen as bits.
fn atomic<T: AtomicInteger + std::fmt::Display>(
    it: &Atomic<T>,
    call: &str,
    n: [u128; 2],
    from: fn(u128) -> T,
    bits: fn(T) -> u128,
) -> String {
    let (a, b) = (from(n[0]), from(n[1]));
    let result = |result| match result {
        Ok(old) => format!("ok {old}"),
        Err(old) => format!("err {old}"),
    };
    let old = match call {
        "store" => return done(it.store(a, SeqCst)),
        "compare_exchange" => return result(it.compare_exchange(a, b, SeqCst, SeqCst)),
        "compare_exchange_weak" => return result(it.compare_exchange_weak(a, b, SeqCst, SeqCst)),
        "fetch_update" => return result(it.fetch_update(SeqCst, SeqCst, |old| choice(bits(old)).map(from))),
        "load" => it.load(SeqCst),
        "swap" => it.swap(a, SeqCst),
        "fetch_add" => it.fetch_add(a, SeqCst),
        "fetch_sub" => it.fetch_sub(a, SeqCst),
        "fetch_and" => it.fetch_and(a, SeqCst),
        "fetch_or" => it.fetch_or(a, SeqCst),
        "fetch_xor" => it.fetch_xor(a, SeqCst),
        "fetch_nand" => it.fetch_nand(a, SeqCst),
        "fetch_max" => it.fetch_max(a, SeqCst),
        "fetch_min" => it.fetch_min(a, SeqCst),
        _ => unreachable!("{call}"),
    };
    old.to_string()
}

impl Object {
    pub fn new(kind: &Kind, parties: usize, value: u128) -> Object {
        match kind.name {
            "mutex" => Object::Mutex(Mutex::new()),
            "spin" => Object::Spin(SpinLock::new(()), (0..parties).map(|_| StdMutex::new(None)).collect()),
            "semaphore" => Object::Semaphore(Semaphore::new(value as u64)),
            "barrier" => Object::Barrier(Barrier::new(value as u32)),
            "rwreader" => Object::Reader(RwLockReaderPreference::new()),
            "rwwriter" => Object::Writer(RwLockWriterPreference::new()),
            "condvar" => Object::Condvar(ConditionVariable::new(), Mutex::new()),
            "once" => Object::Once(Once::new()),
            "lazy" => Object::Lazy(LazyLock::new(Box::new(move || {
                event(Act::ClosureEnds);
                value as u64
            }))),
            "atomic_u64" => Object::U64(Atomic::new(value as u64)),
            "atomic_u128" => Object::U128(Atomic::new(value)),
            "atomic_i64" => Object::I64(Atomic::new(value as i64)),
            "atomic_i128" => Object::I128(Atomic::new(value as i128)),
            name => unreachable!("{name}"),
        }
    }

    /// The party's call of this name, with these numbers: its answer.
    pub fn call(&'static self, party: usize, call: &str, n: [u128; 2]) -> String {
        match (self, call) {
            (Object::Mutex(lock) | Object::Condvar(_, lock), "lock") => told(lock.lock(wait)),
            (Object::Mutex(lock) | Object::Condvar(_, lock), "try_lock") => told(lock.try_lock()),
            (Object::Mutex(lock) | Object::Condvar(_, lock), "unlock") => done(lock.unlock(wake_one)),
            (Object::Condvar(it, _), "notify_one") => done(it.notify_one(wake_one)),
            (Object::Condvar(it, _), "notify_all") => done(it.notify_all(wake_all)),
            (Object::Condvar(it, lock), "start_wait") => told(it.wait(lock, wake_one, wait, wait)),
            (Object::Spin(_, guards), "unlock") => done(drop(guards[party].lock().unwrap().take())),
            (Object::Spin(lock, guards), _) => {
                let guard = match call {
                    "lock" => lock.lock().ok(),
                    "blocking_lock" => Some(lock.blocking_lock()),
                    _ => lock.try_lock(),
                };
                let result = if guard.is_some() { WaitResult::Success } else { WaitResult::Interrupted };
                *guards[party].lock().unwrap() = guard;
                told(result)
            }
            (Object::Semaphore(it), "value") => it.value().to_string(),
            (Object::Semaphore(it), "post") => done(it.post(wake_one, n[0] as u64)),
            (Object::Semaphore(it), "start_wait") => told(it.wait(wait)),
            (Object::Semaphore(it), "try_wait") => told(it.try_wait()),
            (Object::Barrier(it), "start_wait") => {
                it.wait(|word, seen| drop(wait(word, seen)), wake_all);
                if take_note() == "full" { "full" } else { "ok" }.into()
            }
            (Object::Reader(lock), "read_lock") => told(lock.read_lock(wait)),
            (Object::Reader(lock), "try_read_lock") => told(lock.try_read_lock()),
            (Object::Reader(lock), "write_lock") => told(lock.write_lock(wait)),
            (Object::Reader(lock), "try_write_lock") => told(lock.try_write_lock()),
            (Object::Reader(lock), "unlock") => done(lock.unlock(wake_one)),
            (Object::Writer(lock), "read_lock") => told(lock.read_lock(wait)),
            (Object::Writer(lock), "try_read_lock") => told(lock.try_read_lock()),
            (Object::Writer(lock), "write_lock") => told(lock.write_lock(wait, wake_one, wake_all)),
            (Object::Writer(lock), "try_write_lock") => told(lock.try_write_lock()),
            (Object::Writer(lock), "unlock") => done(lock.unlock(wake_one, wake_all)),
            (Object::Once(it), "call_once") => done(it.call_once(|| event(Act::ClosureEnds))),
            (Object::Once(it), "is_completed") => it.is_completed().to_string(),
            (Object::Lazy(it), "force") => {
                let value = *LazyLock::force(it);
                event(Act::ReadCell(value));
                value.to_string()
            }
            (Object::U64(it), _) => atomic(it, call, n, |v| v as u64, |v| v as u128),
            (Object::U128(it), _) => atomic(it, call, n, |v| v, |v| v),
            (Object::I64(it), _) => atomic(it, call, n, |v| v as i64, |v| v as i128 as u128),
            (Object::I128(it), _) => atomic(it, call, n, |v| v as i128, |v| v as u128),
            _ => unreachable!("{call}"),
        }
    }

    /// The address of the word that is shown first, where it need not be the first that a call comes to; else 0.
    pub fn first_word(&self) -> usize {
        if let Object::Condvar(_, lock) = self { lock as *const Mutex as usize } else { 0 }
    }

    /// The bits of an atomic's data.
    pub fn data(&self) -> Option<u128> {
        Some(match self {
            Object::U64(it) => unsafe { *it.as_ptr() as u128 },
            Object::U128(it) => unsafe { *it.as_ptr() },
            Object::I64(it) => unsafe { *it.as_ptr() as u64 as u128 },
            Object::I128(it) => unsafe { *it.as_ptr() as u128 },
            _ => return None,
        })
    }
}
