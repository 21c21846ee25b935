# shellcheck shell=bash disable=SC2154
# The tests of how the scripts build, in a small repository with a stand-in for rt.

export STAND_IN=$room/stand-in

make_repository() {
    mkdir -p "$STAND_IN" "$room/small/crates/"{words,listing,run,show} "$room/small/host"
    cp -R analyse guide brackets scripts "$room/small"
    cp host/analyser.h "$room/small/host"
    printf '%s\n' 'words:' 'stacks: words # a comment' 'listing: words stacks io' 'run: words' 'show: words' >"$room/small/crates.txt"
    echo one >"$room/small/crates/words/source"
    printf 'moves 1 entries 1\n' >"$STAND_IN/text"
    : >"$STAND_IN/asked"
}

times_asked() { same "times that rt was asked" "$1" "$(wc -l <"$STAND_IN/asked")"; }

# Seven of eight calls wait for the first, unless more than one has asked.
release_when_seven_wait() {
    until [ "$(cat "$room"/err? | grep -c 'waiting for another call')" -eq 7 ] || [ "$(wc -l <"$STAND_IN/asked")" -gt 1 ]; do sleep 0.1; done
    rm "$STAND_IN/hold"
}

fresh_clone() {
    : >"$STAND_IN/hold"
    eight_at_once $'moves 1 entries 1\n' "$STAND_IN/hold" release_when_seven_wait
    times_asked 1
    cat "$room"/err? >"$room/err"
    says "analyse: proved 1 of at most 3: stacks ("
    says "analyse: proved 2 of at most 3: listing ("
    ! grep -q 'words' "$room/err" || fail "a crate that was proved before is named"
    [ ! -e "$room/small/crates/listing/written" ] || fail "the run of rt leaves a file written"
}

# Each script has a program of its own, and hands on the numbers that it is given.
own_programs() {
    local case=$model/case.bin start=$model/start.bin
    gives 0 $'moves 1 entries 1\n' ./analyse "$case" "$start"
    same "words of the listing" "" "$(cat "$STAND_IN/words")"
    gives 0 $'moves 1 entries 1\n' ./guide "$case" "$start" 3
    same "words of the run by all rounds" "<3>" "$(cat "$STAND_IN/words")"
    gives 0 $'moves 1 entries 1\n' ./guide "$case" "$start" 3 007
    same "words of the run by some rounds" "<3><007>" "$(cat "$STAND_IN/words")"
    gives 0 $'moves 1 entries 1\n' ./brackets "$case" "$start" 4
    same "words of the stack" "<4>" "$(cat "$STAND_IN/words")"
    same "what rt was asked" $'run listing\nrun run\nrun show' "$(cat "$STAND_IN/asked")"
}

# Only changed sources are proved again, and what is built needs no rt.
changed_sources() {
    touch "$room/small/crates/words/source"
    PATH=/usr/bin:/bin gives 0 $'moves 1 entries 1\n' ./analyse "$model/case.bin" "$model/start.bin"
    is_silent
    times_asked 3
    echo two >"$room/small/crates/words/source"
    : >"$STAND_IN/fail"
    gives 4 '' ./analyse "$model/case.bin" "$model/start.bin"
    says "fn listing::main: no proof"
    ! grep -q '^fn stacks' "$room/err" || fail "a proved function is named"
    rm "$STAND_IN/fail"
    PATH=/usr/bin:/bin gives 4 '' ./analyse "$model/case.bin" "$model/start.bin"
    says "rt, which proves and builds it, is not on the path"
    gives 0 $'moves 1 entries 1\n' ./analyse "$model/case.bin" "$model/start.bin"
    times_asked 5
    # A program that is gone is built again.
    rm -r "$room/small/crates/listing/out" "$room/small/target/built"
    gives 0 $'moves 1 entries 1\n' ./analyse "$model/case.bin" "$model/start.bin"
    is_clear
}

unwritten_text() {
    : >"$STAND_IN/mute"
    gives 5 '' ./analyse "$model/case.bin" "$model/start.bin"
    says "output is lost"
    rm "$STAND_IN/mute"
}

ended_while_it_waits() {
    local lock
    echo three >"$room/small/crates/words/source"
    exec {lock}<"$room/small"
    flock "$lock"
    start ./analyse "$model/case.bin" "$model/start.bin"
    until grep -q 'waiting for another call' "$room/err"; do sleep 0.1; done
    end_by TERM 143
    exec {lock}<&-
}

ended_while_it_proves() {
    local process processes
    for signal in HUP:129 INT:130 TERM:143; do
        echo "$signal" >"$room/small/crates/words/source"
        : >"$STAND_IN/hold"
        start ./analyse "$model/case.bin" "$model/start.bin"
        until_there "$STAND_IN/processes"
        end_by "${signal%:*}" "${signal#*:}"
        read -ra processes <"$STAND_IN/processes"
        for process in "${processes[@]}"; do
            ! is_running "$process" || fail "process $process is left after ${signal%:*}"
        done
        rm "$STAND_IN/processes" "$STAND_IN/hold"
    done
    gives 0 $'moves 1 entries 1\n' ./analyse "$model/case.bin" "$model/start.bin"
}

small_repository() {
    make_repository
    cd "$room/small" || exit
    PATH=$repository/tests/stand-in:$PATH
    fresh_clone
    own_programs
    changed_sources
    unwritten_text
    ended_while_it_waits
    ended_while_it_proves
}
