# shellcheck shell=bash disable=SC2154
# The tests of the scripts on worked models: their files stand in tests/data/models, those of model A in tests/data/model-a.

models=$repository/tests/tests/data/models

# Document 01's models B and C, its sentence "At the edges" (a cell naming itself, 64 and 65 starts), and a table of 65 entries.
listed_models() {
    local number most=$'moves 3 entries 3\nmost 1\n'
    gives 0 $'moves 2 entries 2\nmost 1\nstart 0 yes 1 1 8\nstart 1 no\n' ./analyse "$models/b_case.bin" "$models/b_start.bin"
    gives 0 $'moves 3 entries 3\nmost 1\nstart 0 yes 2 2 8\n' ./analyse "$models/c_case.bin" "$models/c_start.bin"
    gives 0 $'moves 3 entries 3\nmost 1\nstart 0 yes 1 1 5\n' ./analyse "$models/c_case.bin" "$models/c_two_start.bin"
    for number in {0..63}; do most+="start $number yes 0 0 4"$'\n'; done
    gives 0 "$most" ./analyse "$model/case.bin" "$models/most_start.bin"
    is_silent
    gives 3 $'refused 5\n' ./analyse "$model/case.bin" "$models/many_start.bin"
    gives 3 $'refused 6\n' ./analyse "$model/case.bin" "$models/itself_start.bin"
    gives 3 $'refused 9\n' ./analyse "$models/large_case.bin" "$models/c_start.bin"
    is_clear
}

# Model C, a counter that arrives, one whose walk takes more than 4,096 cells, and a table of 65 entries.
guided_models() {
    gives 0 $'start 0 yes 2 2 8\n0 1\n' ./guide "$models/c_case.bin" "$models/c_start.bin" 0
    gives 0 $'start 0 yes 6 8 22\n2 3 1 4 5 1 6 0\n' ./guide "$models/counter_case.bin" "$models/counter_start.bin" 0
    gives 0 "$(cat "$models/counter_run.txt")"$'\n' ./guide "$models/counter_case.bin" "$models/counter_start.bin" 1
    is_silent
    gives 3 $'refused 9\n' ./guide "$models/large_case.bin" "$models/c_start.bin" 0
    is_clear
}

# The programs themselves, where there is no file: as for an empty one.
without_files() {
    local program digest
    digest=$(./analyse --version)
    digest=${digest##* }
    mkdir "$room/none"
    for program in listing run show; do
        try env -C "$room/none" "$repository/target/built/$program-$digest" 0
        same "output of $program without files" $'refused 1\n.' "$(text_of out)"
        [ -e "$room/none/written" ] || fail "$program without files leaves no file written"
        rm -f "$room/none/written"
    done
}
