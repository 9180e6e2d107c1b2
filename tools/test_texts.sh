# Each case of the tables of texts/PROGRAM, which tools/played.py reads: a text, or a question, with all that the program makes of it. And
# those of texts/rust, with what the Rust crate makes of them, and the port. And texts of several objects that are made at random print what
# tools/brute.py says, which knows nothing but the pages.
test_texts() {
    local folder program table
    for folder in texts/*; do
        program=${folder#texts/}
        if [[ $program == rust ]]; then
            if is_built sync-play && is_built sync-trace; then
                for table in "$folder"/*; do
                    play_table "$table" tools/rust_texts.py
                done
            fi
        elif is_built "$program"; then
            for table in "$folder"/*; do
                play_table "$table" tools/played.py "$program"
            done
        fi
        if [[ $program == sync-play ]] && is_built "$program"; then
            attempt python3 tools/brute.py --texts 300 1
            judge_line "tools/brute.py, of texts" 0 "300 texts, 0 wrong" ""
        fi
    done
}

# Counts the cases of one table: play_table TABLE SCRIPT ARGUMENT..
play_table() {
    local case table=$1
    shift
    attempt python3 "$@" "$table"
    if [[ ! $(tail -n 1 -- "$room/out") =~ ^([1-9][0-9]*)\ cases,\ ([0-9]+)\ wrong$ ]]; then
        fail "$table" "it ended with status $status; it said: $(tail -n 3 -- "$room/err")"
        return
    fi
    passed=$((passed + BASH_REMATCH[1] - BASH_REMATCH[2]))
    while IFS= read -r case; do
        fail "$table" "$case"
    done < <(head -n -1 -- "$room/out")
}
