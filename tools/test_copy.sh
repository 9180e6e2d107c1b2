# What copies the library into another repository: a lock with what it stands on alone, their lines, both licences, and nothing twice.
source tools/test_first.sh

test_copy() {
    local to=$room/copy names="LICENSE-APACHE LICENSE-MIT model_events model_once running_model running_once running_passes running_sharing"
    attempt tools/copy-library "$to" once
    judge_line "a once" 0 "copied: 6 crates; there already: 0" ""
    ls -- "$to/crates" >"$room/names"
    attempt paste -sd " " -- "$room/names"
    judge_line "its crates" 0 "$names" ""
    attempt grep -cxFf "$to/crates.txt" crates.txt
    judge_line "their lines" 0 6 ""
    attempt tools/copy-library "$to" once
    judge_line "a once that stands there" 0 "copied: 0 crates; there already: 6" ""
    echo "// mine" >>"$to/crates/model_once/src/lib.rt"
    rm -- "$to/crates/running_once/src/shares.rt"
    sed -i 's/^running_passes .*/running_passes: mine/' "$to/crates.txt"
    attempt tools/copy-library "$to" lazy_lock
    printf 'copy-library: left as it stands, though it differs: %s\n' crates/model_once/src/lib.rt crates/running_once/src/shares.rt "crates.txt: running_passes: mine" >"$room/wanted_err"
    echo "copied: 4 crates; there already: 6" >"$room/wanted_out"
    judge "another beside what was changed" 1 "$room/wanted_out" "$room/wanted_err"
    attempt tools/copy-library "$to" mutexes
    judge_line "no lock" 1 "" "copy-library: there is no crate mutexes, nor one of a lock of that name"
    put_first "$room/first"
    attempt cat -- "$room/copied"
    judge_line "a guarded value with handles" 0 "copied: 17 crates; there already: 0" ""
    check_plain
    limit=1200 attempt env -C "$room/first/crates/my_counter" rt try
    if ((status == 0)) && [[ $(<"$room/out") == 4000 ]]; then
        succeed
    else
        fail "README's program, copied" "it ended with status $status; it said: $(tail -n 3 -- "$room/out" "$room/err")"
    fi
}
