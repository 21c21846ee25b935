# shellcheck shell=bash disable=SC2154
# The bytes of case files and start files for the tests of the scripts, in the form that printf '%b' takes.

# A file among the examples of a request of document 02, by its argument and the example's name.
example() { # REQUEST ARGUMENT NAME
    grep -F $'\t'"$3"$'\t' "$repository/tests/tests/data/vectors02/$1.txt" | sed -E "s/.*[[:blank:]]$2=([0-9a-f]+) .*/\1/; s/../\\\\x&/g"
}

# A number as so many bytes, low byte first.
low_bytes() { # NUMBER LENGTH
    local at
    for ((at = 0; at < $2; at++)); do printf '\\x%02x' $(($1 >> 8 * at & 255)); done
}

# A record: these bytes, and zeros up to its length.
record() { # LENGTH BYTE..
    local length=$1 byte
    shift
    for byte; do low_bytes "$byte" 1; done
    low_bytes 0 $((length - $#))
}

# The first byte of a file and its contents: for each body the number of its records and their length.
contents() { # BYTE COUNT LENGTH [COUNT LENGTH]..
    local kind=0 at=$((1 + 8 * ($# / 2)))
    low_bytes "$1" 1
    shift
    while [ $# -gt 0 ]; do
        kind=$((kind + 1))
        low_bytes "$kind" 2
        low_bytes "$1" 2
        low_bytes "$at" 4
        at=$((at + $1 * $2))
        shift 2
    done
}

# The longest sound case: 256 rules that give no result, 64 edges, 1,024 moves, the codes 11 to 18.
longest_case() {
    local number
    contents 5 1 14 256 5 64 4 1024 19 1 8
    record 14 8 8 16 32
    for ((number = 0; number < 256; number++)); do record 5 0 0 11; done
    for ((number = 0; number < 64; number++)); do record 4 $((8 + number / 8)) $((number % 8)); done
    for ((number = 0; number < 1024; number++)); do record 19 $((number / 64)) $((number / 2 % 32)) 0 0 0 0 0 0 0 0 0 $((number % 2)); done
    record 8 11 12 13 14 15 16 17 18
}

# A case of 64 order-1 states, all of them entries, to which round 1 adds one more: for each control one for each set of the inner order-2
# states 8, 9 and 10, and a pop 2.
full_case() {
    local number
    contents 4 1 14 1 5 64 4 0 19
    record 14 8 3 0 2
    record 5 0 0 6 0 1
    for ((number = 0; number < 64; number++)); do record 4 $((number / 8)) 255 0 $((number % 8)); done
}

# A start file whose stack has 62 order-1 stacks of 132 symbols each: the top one as named, all others 0, all annotated by the empty order-1
# stack. The symbols are cells 2 to 133, the top one 134; the order-1 stacks are 133 and, on top, 134; the order-2 stacks are 135 to 196.
wide_start() { # SYMBOL
    local cell
    contents 2 1 3 197 6
    record 3 0 196
    record 6 3
    record 6 1
    record 6 2 0 1 0 1
    for ((cell = 3; cell < 134; cell++)); do record 6 2 0 1 0 $((cell - 1)); done
    record 6 2 "$1" 1 0 132
    record 6 4 0 133 0 0
    for ((cell = 136; cell < 196; cell++)); do record 6 4 0 133 0 $((cell - 1)); done
    record 6 4 0 134 0 195
}
