# The laws of the primitives: each tells its own words, and takes of the table that it judges the table alone.
test_laws() {
    local line
    if ! python3 tools/laws.py >"$room/laws"; then
        fail "laws" "the definitions cannot be looked at"
    fi
    while IFS= read -r line; do
        if [[ $line == ok ]]; then
            succeed
        else
            fail "${line%%: *}" "${line#*: }"
        fi
    done <"$room/laws"
}
