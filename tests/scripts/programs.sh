# shellcheck shell=bash disable=SC2154
# The tests of the scripts on the programs of this repository.

# Document 01's model A, with the rounds of document 02, §1, and the count of §7.
listing='moves 3 entries 3
most 1
start 0 yes 2 2 9
start 1 yes 0 0 6
start 2 no
'

model_a() {
    gives 0 "$listing" ./analyse "$model/case.bin" "$model/start.bin"
    # Now it is built.
    gives 0 "$listing" ./analyse "$model/case.bin" "$model/start.bin"
    is_silent
    gives 0 "$listing" ./analyse <(cat "$model/case.bin") /dev/stdin <"$model/start.bin"
    is_clear
}

guided_runs() {
    gives 0 $'start 0 yes 2 2 9\n0 1\n' ./guide "$model/case.bin" "$model/start.bin" 0
    gives 0 $'start 1 yes 0 0 6\n\n' ./guide "$model/case.bin" "$model/start.bin" 1
    is_silent
    gives 0 $'start 2 no\n' ./guide "$model/case.bin" "$model/start.bin" 2
    gives 3 $'refused 7\n' ./guide "$model/case.bin" "$model/start.bin" 3
    says "guide, replay, brackets: the start named is not in the file"
    gives 3 $'refused 7\n' ./guide "$model/case.bin" "$model/start.bin" 18446744073709551616
    is_clear
}

# Writes the two files of an example of a request of document 02.
put_example() { # REQUEST NAME
    printf '%b' "$(example "$1" case "$2")" >"$room/case.bin"
    printf '%b' "$(example "$1" start "$2")" >"$room/start.bin"
}

# Document 02, §8: the first start of model A is won in round 2, and the third is not accepted when nothing is left to add.
guided_by_rounds() {
    local case=$model/case.bin start=$model/start.bin rounds
    for rounds in 0 1; do
        gives 0 $'start 0 open\n' ./guide "$case" "$start" 0 "$rounds"
        gives 0 $'start 1 yes 0 0 6\n\n' ./guide "$case" "$start" 1 "$rounds"
        gives 0 $'start 2 open\n' ./guide "$case" "$start" 2 "$rounds"
        is_silent
    done
    for rounds in 2 3 1024 65536 4294967296 18446744073709551615 18446744073709551616; do
        gives 0 $'start 0 yes 2 2 9\n0 1\n' ./guide "$case" "$start" 0 "$rounds"
        gives 0 $'start 2 no\n' ./guide "$case" "$start" 2 "$rounds"
        is_silent
    done
    gives 3 $'refused 7\n' ./guide "$case" "$start" 3 0
    gives 3 $'refused 1\n' ./guide /dev/null "$start" 0 0
    # 9 is about the rounds run.
    printf '%b' "$(full_case)" >"$room/case.bin"
    gives 0 $'start 0 open\n' ./guide "$room/case.bin" "$start" 0 0
    gives 3 $'refused 9\n' ./guide "$room/case.bin" "$start" 0 1
    says "the saturated table, or the table of the rounds run, has more moves than lent"
    gives 3 $'refused 9\n' ./guide "$room/case.bin" "$start" 0
    gives 3 $'refused 9\n' ./analyse "$room/case.bin" "$start"
    # A walk that is another one after round 3, in which the entry that the pop leads to gains a move.
    put_example 08 'a walk that differs with n, n = 2'
    gives 0 $'start 0 yes 2 2 13\n1 0\n' ./guide "$room/case.bin" "$room/start.bin" 0 2
    gives 0 $'start 0 yes 2 4 17\n0 2 1 0\n' ./guide "$room/case.bin" "$room/start.bin" 0
    gives 0 $'start 4 open\n' ./guide "$room/case.bin" "$room/start.bin" 4 3
    gives 0 $'start 4 no\n' ./guide "$room/case.bin" "$room/start.bin" 4 4
    is_clear
}

printed_stacks() {
    local case=$model/case.bin start=$model/start.bin
    gives 0 $'[[0 1{[]}][1 1{[]}]]\n' ./brackets "$case" "$start" 0
    gives 0 $'[[1 1{[]}]]\n' ./brackets "$case" "$start" 1
    is_silent
    gives 0 $'[[1 1{[]}]]\n' ./brackets "$case" "$start" 2
    gives 3 $'refused 7\n' ./brackets "$case" "$start" 3
    says "guide, replay, brackets: the start named is not in the file"
    gives 3 $'refused 7\n' ./brackets "$case" "$start" 18446744073709551616
    # Symbols of two digits, annotations of order 2, an empty order-1 stack.
    put_example 06 'text 3 of empty stacks, order-2 annotations and shared cells'
    gives 0 $'[[10 2{[[31 2{[]}]]} 31 2{[]}][][31 2{[]}]]\n' ./brackets "$room/case.bin" "$room/start.bin" 3
    is_clear
}

# The text of wide_start 0.
wide_text() {
    local symbols stacks
    symbols=$(printf '%.0s0 1{[]} ' {1..132})
    stacks=$(printf "%.0s[${symbols% }]" {1..62})
    printf '[%s]' "$stacks"
}

long_stacks() {
    local case=$room/case.bin start=$room/start.bin text
    put_example 06 'a text of about 2^243 bytes'
    gives 3 $'refused 13\n' timeout 20 ./brackets "$case" "$start" 0
    says "the text is longer than the bytes lent"
    gives 3 $'refused 7\n' ./brackets "$case" "$start" 1
    # The longest text that is printed, and one of a byte more.
    text=$(wide_text)
    same "bytes of the longest text" 65536 "${#text}"
    printf '%b' "$(wide_start 0)" >"$start"
    gives 0 "$text"$'\n' ./brackets "$case" "$start" 0
    printf '%b' "$(wide_start 10)" >"$start"
    gives 3 $'refused 13\n' ./brackets "$case" "$start" 0
    is_clear
}

refusals() {
    gives 3 $'refused 1\n' ./analyse /dev/null "$model/start.bin"
    says "the case's first byte, contents table, a count or the length is wrong"
    gives 3 $'refused 5\n' ./analyse "$model/case.bin" "$model/case.bin"
    says "the start file's first byte, contents table, a count or the length is wrong"
    # A file without end is one that is too long.
    gives 3 $'refused 1\n' ./analyse /dev/zero "$model/start.bin"
    gives 3 $'refused 1\n' ./brackets /dev/zero "$model/start.bin" 0
    gives 3 $'refused 5\n' ./brackets "$model/case.bin" /dev/zero 0
    is_clear
}

suppliers_codes() {
    local case=$room/case.bin start=$model/start.bin
    printf '%b' "$(example 05 case "A in a supplier's codes: the guide")" >"$case"
    gives 0 "$listing" ./analyse "$case" "$start"
    gives 0 $'start 0 yes 2 2 9\n0 1\n' ./guide "$case" "$start" 0
    is_silent
    gives 0 $'[[0 1{[]}][1 1{[]}]]\n' ./brackets "$case" "$start" 0
    gives 3 $'refused 7\n' ./guide "$case" "$start" 3
    printf '%b' "$(example 05 case "two equal bytes")" >"$case"
    gives 3 $'refused 12\n' ./analyse "$case" "$start"
    says "not all different, or one is zero"
    gives 3 $'refused 12\n' ./guide "$case" /dev/null 3
    gives 3 $'refused 12\n' ./brackets "$case" /dev/null 3
    printf '%b' "$(longest_case)" >"$case"
    same "bytes of the longest case" 21055 "$(wc -c <"$case")"
    gives 0 $'moves 1024 entries 0\nmost 0\nstart 0 no\nstart 1 no\nstart 2 no\n' ./analyse "$case" "$start"
    gives 0 $'start 1 no\n' ./guide "$case" "$start" 1
    gives 0 $'[[1 1{[]}]]\n' ./brackets "$case" "$start" 1
    is_clear
}

wrong_use() {
    local script rounds case=$model/case.bin start=$model/start.bin
    gives 2 '' ./analyse
    gives 2 '' ./analyse "$case"
    gives 2 '' ./analyse "$case" "$start" 0
    gives 2 '' ./analyse "$room/none" "$start"
    gives 2 '' ./analyse "$case" "$room"
    says "usage: ./analyse CASE START"
    for script in ./guide ./brackets; do
        gives 2 '' "$script"
        gives 2 '' "$script" "$case"
        gives 2 '' "$script" "$case" "$start"
        gives 2 '' "$script" "$case" "$start" 0 0 0
        says "there are 5 arguments"
        gives 2 '' "$script" "$room/none" "$start" 0
        gives 2 '' "$script" "$case" "$room" 0
        gives 2 '' "$script" "$case" "$start" ''
        gives 2 '' "$script" "$case" "$start" -1
        gives 2 '' "$script" "$case" "$start" 0x1
        says "'0x1' is no decimal number of a start; usage: $script CASE START NUMBER"
    done
    gives 2 '' ./brackets "$case" "$start" 0 0
    says "there are 4 arguments; usage: ./brackets CASE START NUMBER"
    for rounds in '' -1 0x1 1.5 all; do
        gives 2 '' ./guide "$case" "$start" 0 "$rounds"
        says "'$rounds' is no decimal number of rounds; usage: ./guide CASE START NUMBER [ROUNDS]"
    done
    gives 2 '' ./guide "$case" "$start" x 1
    says "'x' is no decimal number of a start"
    is_clear
}

options() {
    local script
    for script in analyse guide brackets; do
        try "./$script" --help
        same "status of $script --help" 0 "$status"
        grep -q "^usage: ./$script CASE START" "$room/out" || fail "$script --help says no usage"
        try "./$script" --version
        same "status of $script --version" 0 "$status"
        grep -qE "^$script: .* sources [0-9a-f]{16}\$" "$room/out" || fail "$script --version says no sources"
    done
    try ./guide --help
    grep -qxF 'usage: ./guide CASE START NUMBER [ROUNDS]' "$room/out" || fail "guide --help names no rounds"
    grep -qF "'open'" "$room/out" || fail "guide --help does not say what open is"
    try ./brackets --help
    grep -qxF 'usage: ./brackets CASE START NUMBER' "$room/out" || fail "brackets --help names other arguments"
}

# Runs a command whose standard output is a pipe that nobody reads.
into_closed_pipe() { # COMMAND..
    local pipe
    exec {pipe}> >(exec true)
    wait $!
    status=0
    "$@" 1>&"$pipe" 2>"$room/err" || status=$?
    exec {pipe}>&-
}

lost_output() {
    local command files="$model/case.bin $model/start.bin"
    for command in "./analyse $files" "./guide $files 0" "./brackets $files 0" "./analyse --help"; do
        status=0
        $command >/dev/full 2>"$room/err" || status=$?
        same "status of $command on a full device" 5 "$status"
        status=0
        $command >&- 2>"$room/err" || status=$?
        same "status of $command without output" 5 "$status"
    done
    into_closed_pipe ./analyse "$model/case.bin" "$model/start.bin"
    same "status on a closed pipe" 5 "$status"
    says "output is lost"
    # Lost messages change no status.
    status=0
    ./analyse /dev/null "$model/start.bin" >/dev/null 2>/dev/full || status=$?
    same "status of a refusal whose message is lost" 3 "$status"
    is_clear
}

# A call that waits for its files is ended by a signal.
ended_while_it_reads() {
    mkfifo "$room/pipe"
    for signal in HUP:129 INT:130 TERM:143; do
        start ./analyse "$room/pipe" "$model/start.bin"
        until [ -n "$(ls "$TMPDIR")" ]; do sleep 0.1; done
        end_by "${signal%:*}" "${signal#*:}"
    done
}

this_repository() {
    model_a
    guided_runs
    guided_by_rounds
    listed_models
    guided_models
    without_files
    printed_stacks
    long_stacks
    refusals
    suppliers_codes
    wrong_use
    options
    lost_output
    eight_at_once "$listing"
    ended_while_it_reads
}
