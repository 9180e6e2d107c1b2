# Where a running call may call a closure, or make a step, past its model: only in the lines that tools/closures.txt lists.
test_closures() {
    local line
    attempt python3 tools/closures.py
    if [[ ! $(tail -n 1 -- "$room/out") =~ ^([1-9][0-9]*)\ lines,\ ([0-9]+)\ wrong$ ]]; then
        fail "closures" "it ended with status $status; it said: $(tail -n 3 -- "$room/err")"
        return
    fi
    passed=$((passed + BASH_REMATCH[1]))
    while IFS= read -r line; do
        fail "closures" "$line"
    done < <(head -n -1 -- "$room/out")
}
