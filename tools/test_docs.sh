# The pages: README's and docs' examples, edits and links are those that stand here.
test_docs() {
    local line
    if ! python3 tools/test_docs.py >"$room/docs"; then
        fail "docs" "the pages cannot be looked at"
    fi
    while IFS= read -r line; do
        if [[ $line == ok ]]; then
            succeed
        else
            fail "${line%%: *}" "${line#*: }"
        fi
    done <"$room/docs"
}
