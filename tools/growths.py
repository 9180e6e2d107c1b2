"""Every public call that takes memory, with what refuses it memory in turn.

    tools/growths.py

A call that has a parameter `alloc` and no row here is wrong, and so is a row whose call or whose test is not there. Prints what is wrong, and
then how many calls there are. The status is 0 where nothing is wrong.
"""

import glob
import re
import sys

# Each call that takes an allocator, and the test that sweeps its heap from nothing to enough.
TESTED = {
    "job_queue QueueOf::new": "a_queue_that_finds_no_memory",
    "job_queue QueueState::new": "a_state_that_finds_no_memory",
    "job_queue QueueState::starting_at": "a_state_that_finds_no_memory",
    "model_room Room::new": "a_room_that_finds_no_memory",
    "model_room play": "a_room_that_finds_no_memory",
    "running_atomic Atomic::new": "larger_objects_that_find_no_memory",
    "running_barrier Barrier::new": "locks_that_find_no_memory",
    "running_condvar ConditionVariable::new": "larger_objects_that_find_no_memory",
    "running_guarded Guarded::new": "a_value_comes_back_where_there_is_no_memory",
    "running_lazy_lock LazyLock::new": "a_lazy_value_that_finds_no_memory_hands_its_closure_back",
    "running_lazy_lock LazyLock::keeping": "a_lazy_value_that_finds_no_memory_hands_its_closure_back",
    "running_mutex Mutex::new": "locks_that_find_no_memory",
    "running_once Once::new": "locks_that_find_no_memory",
    "running_rw_reader RwLockReaderPreference::new": "locks_that_find_no_memory",
    "running_rw_writer RwLockWriterPreference::new": "locks_that_find_no_memory",
    "running_rw_value RwLock::new": "a_value_comes_back_where_there_is_no_memory",
    "running_semaphore Semaphore::new": "locks_that_find_no_memory",
    "running_sharing Handle::split_into": "handles_that_find_no_memory",
    "running_spin_lock SpinLock::new": "a_spin_lock_that_finds_no_memory_hands_its_value_back",
    "sleeping_barrier SleepingBarrier::new": "objects_that_find_no_memory",
    "sleeping_guarded SleepingGuarded::new": "objects_that_find_no_memory",
    "sleeping_monitor SleepingMonitor::new": "objects_that_find_no_memory",
    "sleeping_mutex SleepingMutex::new": "objects_that_find_no_memory",
    "sleeping_queue SleepingQueue::new": "a_queue_for_sleepers_that_finds_no_memory",
    "sleeping_rw_reader SleepingRwReader::new": "objects_that_find_no_memory",
    "sleeping_rw_value SleepingRwValue::new": "objects_that_find_no_memory",
    "sleeping_semaphore SleepingSemaphore::new": "objects_that_find_no_memory",
    "sync_play play_text": "texts_that_find_no_memory",
    "sync_play read_all": "texts_that_find_no_memory",
    "sync_play run": "texts_that_find_no_memory",
    "sync_steps Machine::new": "a_machine_that_finds_no_memory",
    "sync_steps play": "events_that_find_no_memory",
    "text_room open": "texts_of_several_that_find_no_memory",
    "text_room play_text": "texts_of_several_that_find_no_memory",
    # What the running types are made of: each `new` above is one of these.
    "running_passes Words::new": "larger_objects_that_find_no_memory",
    "running_model Stage::new": "locks_that_find_no_memory",
    "running_spin_lock new": "a_spin_lock_that_finds_no_memory_hands_its_value_back",
}

# The libraries of the programs, whose calls take memory of the system alone. `./test streams` sweeps the limit of each program.
SWEPT = {
    *("text_lines", "text_advice", "text_own", "own_play", "own_explore", "text_trace", "explore_search", "explore_complete", "explore_stuck", "explore_text", "explore_client"),
    *("draw_markup", "draw_story", "draw_layout", "draw_parts", "draw_text"),
}

# Programs that nobody calls, and tests.
APART = re.compile(r"test_.*|demo_.*|.*_main|sync_bench|bench_.*|running_closures")

FUNCTION = re.compile(r"^ *(?:pub|final) fn (\w+)", re.M)
OWNER = re.compile(r"^(?:pub trait |impl\b(?:<.*>)? (?:[\w:]+(?:<.*>)? for )?)(\w+)", re.M)


def end_of(source, at, opening, closing):
    """Where the bracket that opens at `at` is closed."""
    depth = 0
    for place in range(at, len(source)):
        if source[place] == opening:
            depth += 1
        elif source[place] == closing and source[place - 1] != "-":
            depth -= 1
            if depth == 0:
                return place + 1
    raise ValueError(source[at : at + 40])


def parameters(source, at):
    """The parameters of a function whose name ends there."""
    if source[at] == "<":
        at = end_of(source, at, "<", ">")
    return source[at : end_of(source, at, "(", ")")]


def calls_of(crate, source):
    """The public calls of a file that take memory."""
    for found in FUNCTION.finditer(source):
        if not re.search(r"\balloc:", parameters(source, found.end())):
            continue
        owner = ""
        if found[0].startswith(" "):
            owner = OWNER.findall(source[: found.start()])[-1] + "::"
        yield f"{crate} {owner}{found[1]}"


def main():
    taking = set()
    tests = set()
    for path in glob.glob("crates/*/src/**/*.rt", recursive=True):
        crate = path.split("/")[1]
        source = open(path).read()
        if "/tests" in path:
            tests.update(re.findall(r"fn (\w+)", source))
        elif crate not in SWEPT and not APART.fullmatch(crate):
            taking.update(calls_of(crate, source))
    wrong = [f"{call}: nothing refuses it memory" for call in sorted(taking - TESTED.keys())]
    wrong += [f"{call}: there is no such call" for call in sorted(TESTED.keys() - taking)]
    wrong += [f"{call}: there is no test {test}" for call, test in sorted(TESTED.items()) if test not in tests]
    for line in wrong:
        print(line)
    print(f"{len(taking)} calls that take memory, {len(wrong)} wrong")
    return 1 if wrong else 0


if __name__ == "__main__":
    sys.exit(main())
