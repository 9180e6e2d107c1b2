# What rt ci asks of each crate's text before it proves anything, so that none is refused there after hours.
test_reads() {
    local line
    if ! python3 tools/reads.py >"$room/reads" 2>"$room/err"; then
        fail "reads" "$(tail -n 3 -- "$room/err")"
    fi
    while IFS= read -r line; do
        if [[ $line == ok ]]; then
            succeed
        else
            fail "${line%%: *}" "${line#*: }"
        fi
    done <"$room/reads"
}
