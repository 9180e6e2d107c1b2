# The tool that proves and tries edits, on a crate of three functions and one test: what is no bug, what cannot be read, and what is refused for a
# name alone, fails it and says so, beside wrong bodies in the same check; so do a test that fails and a crate that is not proved. Of four edits on
# which a search gave up, over a checker that only pretends, two fail: one has no control, and that of another is refused like it; two have one
# control, tried once. Each check there begins with what was proved, and with nothing that the one before it left. An edit that the law refuses is not
# tried again, and one that it does not is. One that takes from a proof of `specs` what it stands on is bad. A closure's open goal is held against the
# function in whose body it stands, and not against one of its own name. What was proved is kept from call to call, and does not serve another text.
# With no time left, edits and the proofs of tests are left out, which is told, and is no failure; what is left out comes first at one of four landings.
# Where next to nothing of the disk is free, and something is to be proved, nothing begins.
test_batches() {
    local top=$room/batches crate=$room/batches/crates/sizes
    mkdir -p -- "$top/tools" "$crate/src" "$crate/proofs/no" "$crate/must-fail"
    cp -- tools/prove.py tools/edits.py "$top/tools"
    cp -- HANDLES "$top"
    git init -q -- "$top"
    echo "sizes:" >"$top/crates.txt"
    cat >"$crate/src/lib.rt" <<'RT'
//! Three functions, of which wrong bodies are tried.
#![tactic(auto)]

ghost use Rattle.std.specs.Prelude.{◌≡◌, false, true};

/// Always.
pub fn yes() -> bool
    ensures says { result ≡ true }
{
    true
}

/// Never.
pub fn no() -> bool
    ensures says { result ≡ false }
{
    !yes()
}

/// What it was given.
pub fn same(given: u64) -> u64
    ensures says { result ≡ given }
{
    let again = given;
    again
}

#[cfg(test)]
mod tests {
    use super::{no, same, yes};
    use std::rt::HostRuntime;

    #[test]
    fn each_answers(rt: HostRuntime) {
        assert!(rt; yes() && !no() && same(3) == 3);
    }
}
RT
    cat >"$crate/proofs/no/Answers.antt" <<'ANTT'
use Rattle.std.proofs.Common.{ap, not}
use Rattle.sizes.proofs.no.Goals as goal

pub returns : goal.returns
returns c = record { says = ap not c.yes.ensures.says }
ANTT
    plant yes_is_no "    true" "    false"
    plant no_is_yes "    !yes()" "    yes()"
    plant another_way "    let again = given;" "    let again: u64 = given;"
    plant another_way_with_answers "    !yes()" "    (!yes())"
    plant says_so_by_a_name "    !yes()" "    { let is = yes(); !is }"
    plant cannot_be_read "    !yes()" "    !yes("
    plant stands_nowhere "    maybe()" "    yes()"
    tries "edits of which two are wrong bodies" "edits tests" "4 passed, 5 failed" \
        "2 of its 7 edits are refused" "another_way.edit: NOT REFUSED" "another_way_with_answers.edit: NOT REFUSED" \
        "says_so_by_a_name.edit: SHOWS NOTHING" "cannot_be_read.edit: BAD" "stands_nowhere.edit: BAD"
    printf '%s\n' "file: src/lib.rt" "old:     true" "new:     { let is = true; is }" >"$crate/must-fail/yes_is_no.control.md"
    plant yes_is_not "    true" "    !true"
    cp -- "$crate/must-fail/yes_is_no.control.md" "$crate/must-fail/yes_is_not.control.md"
    printf '%s\n' "file: src/lib.rt" "old:     again" "new:     3" >"$crate/must-fail/same_is_three.edit"
    printf '%s\n' "file: src/lib.rt" "old:     again" "new:     given + 0" >"$crate/must-fail/same_is_three.control.md"
    attempt python3 - "$top" <<'PY'
import os
import sys

sys.path.insert(0, f"{sys.argv[1]}/tools")
import edits
import prove


class Lane:
    folder, shelf, left = sys.argv[1], prove.Shelf(f"{sys.argv[1]}/kept", ["sizes"]), set()

    def made_of(self, name):
        return f"{self.folder}/made"

    def run(self, crate, words):
        at = f"{self.made_of(crate.name)}/incremental"
        self.left |= {*os.listdir(at)}
        open(f"{at}/what_an_edit_leaves_behind", "w").close()
        text = edits.text_of(f"{crate.folder}/src/lib.rt")
        wrong = [name for name, body in (("yes", "    false\n"), ("yes", "    !true\n"), ("no", "    yes()\n"), ("same", "    3\n"), ("same", "    given + 0\n")) if body in text]
        said = [f"note: src/lib.rt:1:1: it is not proved that it says so; `search` gave up at one of its limits\nfn sizes::{it}: no proof: expected answers" for it in wrong]
        said += [f"fn sizes::{it}: proved" for it in ("yes", "no", "same") if it not in wrong]
        return (1, "\n".join([*said, "logic=not-proved"])) if wrong else (0, "logic=proved")


crate = prove.Crate(sys.argv[1], "sizes", [])
crate.edits = ["no_is_yes.edit", "same_is_three.edit", "yes_is_no.edit", "yes_is_not.edit"]
for it in ("kept/sizes", "made"):
    os.makedirs(f"{Lane.folder}/{it}/incremental")
told = prove.Tries(1e12)(Lane(), crate, 1)
print(told.line, told.why, *Lane.left)
PY
    if [[ $(<"$room/out") == "2 of its 4 edits are refused, in 4 checks"*"same_is_three.edit: SHOWS NOTHING: "*"its control is refused too"*"no_is_yes.edit: SHOWS NOTHING without a control: "* ]]; then
        succeed
    else
        fail "an edit at a limit" "it said: $(<"$room/out") $(tail -n 3 -- "$room/err")"
    fi
    attempt python3 - "$top" <<'PY'
import sys

sys.path.insert(0, f"{sys.argv[1]}/tools")
import edits

tries = edits.Batches(f"{sys.argv[1]}/crates/sizes", ["another_way.edit", "no_is_yes.edit"])
said = "note: src/lib.rt:1:1: it is not proved that it says so\nfn sizes::fn::no::same: no proof: expected answers in ./proofs/fn/no/same/Answers.antt\nlogic=not-proved"
tries.judge(tries.next(), 1, said)
print(tries.told["no_is_yes.edit"][0], *(it.name for it in tries.next()))
tries.judge(tries.next(), 0, "logic=proved")
print(tries.told["another_way.edit"][0])
PY
    if [[ $(<"$room/out") == $'refused another_way.edit\nNOT REFUSED' ]]; then
        succeed
    else
        fail "an edit of the function that a wrong closure is handed to" "it said: $(<"$room/out") $(tail -n 3 -- "$room/err")"
    fi
    printf '%s\n' "file: proofs/no/Answers.antt" "old: ap not" "new: ap (not)" >"$crate/must-fail/no_is_proved_otherwise.edit"
    attempt python3 - "$top" <<'PY'
import sys

sys.path.insert(0, f"{sys.argv[1]}/tools")
import edits

tries = edits.Batches(f"{sys.argv[1]}/crates/sizes", ["no_is_proved_otherwise.edit"])
[edit] = tries.next()
print(tries.is_refused_by_law(edit, 0, "fn sizes::at_every_prefix: proved"), *(it.name for it in tries.next()))
said = "./proofs/Laws.antt:1:1: error: `step_law`: these differ\nfn sizes::at_every_prefix: not proved"
print(tries.is_refused_by_law(edit, 1, said), *tries.next(), *tries.told.items())
said = "./specs/Law.antt:2:1: error: 1 declaration that depends on `step`, which was rejected, was not checked: law\nlogic=not-proved"
print(edits.judged(edit, 1, True, edits.reasons_of(said), said)[0])
PY
    if [[ $(<"$room/out") == $'False no_is_proved_otherwise.edit\nTrue '"('no_is_proved_otherwise.edit', ('refused', '\`step_law\`: these differ'))"$'\nBAD' ]]; then
        succeed
    else
        fail "an edit that the law refuses" "it said: $(<"$room/out") $(tail -n 3 -- "$room/err")"
    fi
    rm -- "$crate/must-fail/no_is_proved_otherwise.edit"
    attempt python3 "$top/tools/prove.py" proofs
    if [[ $status == 0 && $(<"$room/out") == *"kept by this machine: sizes"* ]]; then
        succeed
    else
        fail "a crate that an earlier call proved" "it said: $(<"$room/out") $(tail -n 3 -- "$room/err")"
    fi
    attempt python3 "$top/tools/prove.py" --minutes 0 proofs tests edits
    if [[ $status == 0 && $(tail -n 1 -- "$room/out") == "2 passed, 0 failed" && $(<"$room/out") == *"edits that were not tried: 9"*"crates whose tests were not proved: 1"* ]]; then
        succeed
    else
        fail "a budget of no time" "it said: $(<"$room/out") $(tail -n 3 -- "$room/err")"
    fi
    attempt python3 - "$top" <<'PY'
import sys

sys.path.insert(0, f"{sys.argv[1]}/tools")
import prove

day = 24 * 3600
print(prove.landing_of([day, day + 100, day + prove.LANDING - 1, 2 * day, day + prove.LANDING]))
names, first = [f"crate_{it}" for it in range(400)], []
for number in range(7, 11):
    prove.landing_of = lambda times: number
    first.append(set(prove.in_turn(sys.argv[1], names)[:130]))
print(set.union(*first) == {*names}, len(set.intersection(*first)))
PY
    if [[ $(<"$room/out") == $'3\nTrue 0' ]]; then
        succeed
    else
        fail "what was left out" "it said: $(<"$room/out") $(tail -n 3 -- "$room/err")"
    fi
    attempt python3 - "$top" <<'PY'
import collections
import shutil
import sys

sys.path.insert(0, f"{sys.argv[1]}/tools")
import prove

shutil.rmtree(f"{sys.argv[1]}/.git/lanes", ignore_errors=True)
shutil.disk_usage = lambda folder: collections.namedtuple("Room", "free")(2_000_000_000)
sys.exit(prove.main(["proofs"]))
PY
    if [[ $status == 1 && $(<"$room/err") == "the disk is full: 2.0 GB are free at "*", and 3.0 are wanted" ]]; then
        succeed
    else
        fail "a full disk" "it said: $(<"$room/out") $(tail -n 3 -- "$room/err")"
    fi
    sed -i -- 's/same(3) == 3/same(3) == 4/' "$crate/src/lib.rt"
    tries "a test that fails, unproved" tries "0 passed, 1 failed" each_answers
    sed -i -- 's/    true/    false/' "$crate/src/lib.rt"
    tries "a crate that is not proved" proofs "0 passed, 1 failed" "sizes: NOT PROVED"
}

# plant NAME OLD NEW
plant() {
    printf '%s\n' "file: src/lib.rt" "old: $2" "new: $3" >"$crate/must-fail/$1.edit"
}

# What it says of the crate: tries LABEL WHAT LAST WORDS ..
tries() {
    local words
    limit=600 attempt python3 "$top/tools/prove.py" --lanes 2 $2
    if [[ $status != 1 || $(tail -n 1 -- "$room/out") != "$3" ]]; then
        fail "$1" "it ended with status $status, and said: $(tail -n 12 -- "$room/out" "$room/err")"
        return
    fi
    for words in "${@:4}"; do
        if [[ $(<"$room/out") != *"$words"* ]]; then
            fail "$1" "it does not say '$words': $(tail -n 12 -- "$room/out")"
            return
        fi
    done
    succeed
}
