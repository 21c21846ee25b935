#!/usr/bin/env bash
# Tests ./analyse, ./guide and ./brackets: what they print, their statuses, and what they leave behind. First on the programs of this
# repository, which the gate has kept, or the scripts build; then in a small repository with a stand-in for rt, how they build.
set -uo pipefail
cd "$(dirname "$0")/.." || exit
repository=$PWD
model=$repository/tests/tests/data/model-a
room=$(mktemp -d) || exit
trap 'rm -rf "$room"' EXIT
# Others may pass through it, because rt runs a program as nobody below it.
chmod 711 "$room"
mkdir "$room/tmp"
export TMPDIR=$room/tmp
failures=0

# ---- comparisons

fail() {
    echo "scripts: $1" >&2
    failures=$((failures + 1))
}

same() { # WHAT EXPECTED GOT
    [ "$2" = "$3" ] || fail "$1: expected '$2', got '$3'"
}

# Runs a command, and keeps what it writes and its status.
try() { # COMMAND..
    status=0
    "$@" >"$room/out" 2>"$room/err" || status=$?
}

# What a command wrote; a last mark keeps line ends at the end.
text_of() { # FILE
    cat "$room/$1"
    echo .
}

gives() { # STATUS TEXT COMMAND..
    local expected=$1 text=$2
    shift 2
    try "$@"
    same "status of $*" "$expected" "$status"
    same "output of $*" "$text." "$(text_of out)"
}

says() { # WORDS
    grep -qF -- "$1" "$room/err" || fail "standard error lacks '$1': $(cat "$room/err")"
}

is_silent() { same "standard error" "" "$(cat "$room/err")"; }

# The temporary folder of the scripts is empty again.
is_clear() { same "temporary files" "" "$(ls "$TMPDIR")"; }

until_there() { # FILE
    until [ -e "$1" ]; do sleep 0.1; done
}

# Whether a process runs: one that has ended may wait for its parent to ask.
is_running() { # PROCESS
    grep -qs '^State:[[:space:]]*[^Z[:space:]]' "/proc/$1/status"
}

# Starts a command in the background that a signal can end, as a terminal would; `pid` is its number.
start() { # COMMAND..
    set -m
    "$@" >"$room/out" 2>"$room/err" &
    pid=$!
    set +m
}

end_by() { # SIGNAL STATUS
    kill -s "$1" "$pid"
    status=0
    wait "$pid" 2>/dev/null || status=$?
    same "status after $1" "$2" "$status"
    is_clear
}

eight_at_once() { # what each of them prints
    local call calls=()
    for call in {1..8}; do
        ./analyse "$model/case.bin" "$model/start.bin" >"$room/out$call" 2>"$room/err$call" &
        calls+=($!)
    done
    [ ! -e "${2-}" ] || "$3"
    for call in {1..8}; do
        wait "${calls[call - 1]}" || fail "call $call of eight ended with status $?"
        same "call $call of eight" "$1." "$(text_of "out$call")"
    done
    is_clear
}

# ---- the tests

# shellcheck source=tests/scripts/files.sh
. tests/scripts/files.sh
# shellcheck source=tests/scripts/models.sh
. tests/scripts/models.sh
# shellcheck source=tests/scripts/programs.sh
. tests/scripts/programs.sh
# shellcheck source=tests/scripts/building.sh
. tests/scripts/building.sh

this_repository
small_repository
[ "$failures" -eq 0 ] || exit 1
echo "scripts: all as expected"
