"""Copies the Rust crate, and gives the copy the departures of this port, each behind its row of docs/DIFFERENCES.md.

    python3 conform/amend.py CRATE FOLDER

With no row in force the copy makes the steps of the crate. Each text that is replaced has to stand there as often as it says.
"""

import pathlib
import re
import sys

BY = "core::words::departs(core::words::Row::"

# file, old, new, how often
EDITS = [
    # The hold's kind is what the word says while it is held; to know it takes no step here.
    (
        "strategy/rwlock.rs",
        "let state = self.reader_count.load(Ordering::Relaxed);",
        f"let state = if {BY}unlock_by_kind) {{ self.reader_count.peek() }} else {{ self.reader_count.load(Ordering::Relaxed) }};",
        1,
    ),
    (
        "strategy/rwlock.rs",
        "let state = self.state.load(Ordering::Relaxed);\n        if state == WRITE_LOCKED",
        f"let state = if {BY}unlock_by_kind) {{ self.state.peek() }} else {{ self.state.load(Ordering::Relaxed) }};"
        "\n        if state == WRITE_LOCKED",
        1,
    ),
    (
        "strategy/rwlock.rs",
        "let _ = self.state.compare_exchange(\n                    state,\n                    state + 1,\n"
        "                    Ordering::Relaxed,\n                    Ordering::Relaxed,\n                );",
        f"if !({BY}reader_limit) && state == u64::MAX - 1) {{ if let Err(found) = self.state.compare_exchange(state, state + 1,"
        f" Ordering::Relaxed, Ordering::Relaxed) && {BY}failed_mark) {{ state = found; continue; }} }}",
        1,
    ),
    (
        "strategy/rwlock.rs",
        "let writer_wake_counter = self.writer_wake_counter.load(Ordering::Relaxed);",
        "let writer_wake_counter = self.writer_wake_counter.load(Ordering::Relaxed);"
        f" if {BY}last_look) {{ state = self.state.load(Ordering::Relaxed); if state.is_multiple_of(2) || state <= 1 {{ continue; }} }}",
        1,
    ),
    (
        "strategy/rwlock.rs",
        "if reader_count == WRITE_LOCKED {",
        f"if reader_count == WRITE_LOCKED || {BY}reader_limit) && reader_count == u64::MAX - 1 {{",
        1,
    ),
    (
        "strategy/rwlock.rs",
        "if reader_count != WRITE_LOCKED {",
        f"if reader_count != WRITE_LOCKED && !({BY}reader_limit) && reader_count == u64::MAX - 1) {{",
        1,
    ),
    ("strategy/rwlock.rs", "if state % 2 == 1 {", f"if state % 2 == 1 || {BY}reader_limit) && state >= u64::MAX - 3 {{", 2),
    # An arrival looks, and exchanges until it is counted; the one that fills the round opens the next by its own exchange.
    (
        "strategy/barrier.rs",
        "unpack(self.waiters.fetch_add(1, Ordering::Release));",
        f"""unpack(if {BY}barrier_exchange) {{
            let mut seen = self.waiters.load(Ordering::Acquire);
            loop {{
                let (epoch, count) = unpack(seen);
                if count >= self.number_of_waiters {{ core::words::note("full"); return; }}
                let opens = {BY}barrier_opens) && count + 1 == self.number_of_waiters;
                let put = if opens {{ pack(epoch.wrapping_add(1), 0) }} else {{ seen + 1 }};
                match self.waiters.compare_exchange(seen, put, Ordering::AcqRel, Ordering::Acquire) {{
                    Ok(_) => break seen,
                    Err(found) => seen = found,
                }}
            }}
        }} else {{ self.waiters.fetch_add(1, Ordering::Release) }});""",
        1,
    ),
    (
        "strategy/barrier.rs",
        "self.waiters\n                .store(pack(wait_epoch.wrapping_add(1), 0), Ordering::Release);",
        f"if !({BY}barrier_exchange) && {BY}barrier_opens)) {{"
        " self.waiters.store(pack(wait_epoch.wrapping_add(1), 0), Ordering::Release); }",
        1,
    ),
    (
        "strategy/condition_variable.rs",
        "            return WaitResult::Interrupted;",
        f"            if {BY}condvar_relocks) {{ let locked = mtx.lock(mtx_wait);"
        ' if locked == WaitResult::Success { core::words::note("held"); } return locked; }\n            return WaitResult::Interrupted;',
        1,
    ),
    # An atomic's lock is either.
    (
        "atomic.rs",
        "type LockType = RwLockWriterPreference;",
        f"""#[derive(Default)]
struct LockType(RwLockWriterPreference, crate::strategy::rwlock::RwLockReaderPreference);
impl LockType {{
    const fn new() -> Self {{ Self(RwLockWriterPreference::new(), crate::strategy::rwlock::RwLockReaderPreference::new()) }}
    fn read_lock<W: Fn(&AtomicU64, &u64) -> WaitAction>(&self, wait: W) {{
        if {BY}atomic_on_reader) {{ self.1.read_lock(wait) }} else {{ self.0.read_lock(wait) }};
    }}
    fn write_lock<W: Fn(&AtomicU64, &u64) -> WaitAction, O: Fn(&AtomicU64), A: Fn(&AtomicU64)>(&self, wait: W, one: O, all: A) {{
        if {BY}atomic_on_reader) {{ self.1.write_lock(wait) }} else {{ self.0.write_lock(wait, one, all) }};
    }}
    fn unlock<O: Fn(&AtomicU64), A: Fn(&AtomicU64)>(&self, one: O, all: A) {{
        if {BY}atomic_on_reader) {{ self.1.unlock(one) }} else {{ self.0.unlock(one, all) }}
    }}
}}""",
        1,
    ),
    ("atomic.rs", "use crate::cell::UnsafeCell;", "use core::words::Data as UnsafeCell;", 1),
    ("atomic.rs", "None => {", "None => { self.data.look_after_none();", 1),
]

# The same, where a text stands in many forms.
PATTERNS = [
    ("atomic.rs", r"unsafe \{ \*self\.data\.get\(\) = (.*) \};", r"self.data.write(\1);", 9),
    ("atomic.rs", r"unsafe \{ \*self\.data\.get\(\) (.)= value \};", r"{ let mut v = self.data.peek(); v \1= value; self.data.write(v) };", 3),
    ("atomic.rs", r"unsafe \{ \*self\.data\.get\(\) \}", "self.data.read()", 13),
]


def main():
    crate, folder = sys.argv[1:]
    texts = {file.relative_to(f"{crate}/src"): file.read_text(encoding="utf-8") for file in pathlib.Path(crate, "src").rglob("*.rs")}
    for name, old, new, times in [(name, re.escape(old), new, times) for name, old, new, times in EDITS] + PATTERNS:
        file = pathlib.Path(name)
        texts[file], found = re.subn(old, new, texts[file])
        if found != times:
            sys.exit(f"{crate}/src/{name}: it has {found} times and not {times}: {old}")
    for file, text in texts.items():
        pathlib.Path(folder, file).parent.mkdir(parents=True, exist_ok=True)
        pathlib.Path(folder, file).write_text(text, encoding="utf-8")


main()
