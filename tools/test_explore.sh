# Each question of examples/explore is answered: NAME.txt has beside it the answer (NAME.out), NAME.err for standard error where it is not
# empty, NAME.status where the status is not 0, and NAME.told where its moves are told too. Each text in an answer is played by sync-play, and prints what
# its line says. Those of the folder classic are answered so, too. And questions that are made at random are answered as tools/brute.py answers them, which knows nothing but the pages; of locks of one's
# own that are made so none that is said to be proved goes wrong, two hold one at the end of its text, and else in none of the states explored; and their texts print what tools/own_locks.py says.
test_explore() {
    local text stem err
    source tools/test_examples.sh
    is_built sync-explore || return
    is_built sync-play || return
    # By its rows it is told who holds what.
    is_built sync-trace || return
    for text in examples/explore/*.txt examples/explore/classic/*.txt; do
        play_example sync-explore out "${text%.txt}"
        attempt python3 tools/replayed.py "$text" "${text%.txt}.out"
        judge "the texts in ${text%.txt}.out" 0 /dev/null /dev/null
    done
    # Of the textbooks' problems nobody is stuck, in any schedule, but in the wrong solutions.
    for text in examples/explore/classic/*[!g].txt; do
        attempt ./sync-explore < <(grep -v "^never " "$text" && echo "never stuck")
        if [[ $status == 0 && $(<"$room/out") == "never: "* ]]; then
            succeed
        else
            fail "never stuck, of $text" "it ended with status $status, and said: $(<"$room/out")"
        fi
    done
    for text in examples/explore/*.told; do
        stem=${text%.told}
        err=$(compgen -G "$stem.err" || echo /dev/null)
        attempt ./sync-explore --told <"$stem.txt"
        judge "./sync-explore --told, of $text" "$(cat -- "$stem.status" 2>/dev/null || echo 0)" "$text" "$err"
    done
    # Each takes a minute or so where the machine has nothing else to do.
    local limit=600
    attempt python3 tools/brute.py --random 200 1
    judge_line "tools/brute.py" 0 "200 questions, 0 wrong" ""
    attempt python3 tools/brute.py --clients 300 1
    judge_line "tools/brute.py, of clients" 0 "300 questions, 0 wrong" ""
    attempt python3 tools/brute.py --several 300 1
    judge_line "tools/brute.py, of several objects" 0 "300 questions, 0 wrong" ""
    attempt python3 tools/own_locks.py 200 1
    judge_line "tools/own_locks.py" 0 "200 locks, 102 proved, 18 with two holders, 58 explored, 22 faulty, 0 wrong" ""
    attempt python3 tools/own_locks.py --played 60 1
    judge_line "tools/own_locks.py, of texts" 0 "60 texts, 16 faulty, 0 wrong" ""
}
