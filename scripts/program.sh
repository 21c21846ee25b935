# shellcheck shell=bash disable=SC2154
# What ./analyse, ./guide and ./brackets share: prove and build a program of the repository where it is not built yet, run it on a case file
# and a start file, and hand on its text. The script that sources this file has set
#   name     its own name, for messages
#   program  the crate of the program
#   usage    how it is called
#   prints   what it prints

# Without job control a command in the background can become the leader of its own group.
set +m
export LC_ALL=C
unset CDPATH
{ : <&0; } 2>/dev/null || exec </dev/null
repository=$(dirname "$(dirname "$(readlink -f "${BASH_SOURCE[0]}")")")
# shellcheck source=scripts/built.sh
. "$repository/scripts/built.sh"

# The statuses besides 0. Status 1 is left to the shell, for whatever else goes wrong.
readonly WRONG_USE=2 REFUSED=3 NOT_BUILT=4 LOST=5

# More bytes than any sound file has: a file that is cut here is refused for its length all the same.
readonly MOST_BYTES=32768

help() {
    cat <<END
usage: $usage

Prints $prints.
The first call proves and builds the program, which takes some minutes, and says on standard error how far it is.

Status:
  0  all of that is printed
  1  anything that is not below, as a full temporary folder
  $WRONG_USE  wrong use: too few or too many arguments, a number that is none, a file that is missing or can not be read
  $REFUSED  the files are refused: 'refused N' is printed, and what N means is said on standard error
  $NOT_BUILT  the program can not be proved and built
  $LOST  output is lost: not all of the text could be written to standard output
END
}

version() { (echo "$name: the script analyser of document 01, sources $(sources)"); }

# ---- messages

say() { (echo "$name: $1") >&2 || :; }

leave() { # STATUS MESSAGE
    say "$2"
    exit "$1"
}

wrong_use() { leave "$WRONG_USE" "$1; usage: $usage"; }

# ---- what a call has started, and its temporary folder

room='' lines=''

clear_room() { [ -z "$room" ] || rm -rf "$room"; }

# Ends by a signal, as a script without children does: first all that was started ends. The last of rt's group has ended when nobody holds the
# pipe `lines` any more.
stop() { # SIGNAL
    local leader
    trap '' HUP INT TERM
    for leader in $(jobs -pr); do
        kill -TERM -- "-$leader" 2>/dev/null || kill -TERM "$leader" 2>/dev/null || :
        wait "$leader" || :
    done
    [ -z "$lines" ] || cat <&"$lines" >/dev/null
    clear_room
    trap - EXIT "$1"
    kill -s "$1" $$
}

trap clear_room EXIT
for signal in HUP INT TERM; do
    # shellcheck disable=SC2064
    trap "stop $signal" "$signal"
done

# Runs a command as a process group of its own, and answers its status. Unlike a command in the foreground it does not put off a signal.
attend() { # COMMAND..
    setsid "$@" <&0 &
    wait $!
}

# Makes the temporary folder. Others may pass through it, because rt runs a program as nobody below it; the files are in a folder of the user.
make_room() {
    room=$(mktemp -d) || leave 1 "no temporary folder can be made"
    chmod 711 "$room"
    mkdir -m 700 "$room/files"
}

# ---- the program

# Whether the program is proved and built of the sources as they are; `digest` is theirs, and `built` where it stands then.
is_built() {
    digest=$(sources) || leave "$NOT_BUILT" "the sources in $repository can not be read"
    built=$(program_of "$program" "$digest")
    [ -x "$built" ]
}

# One call at a time proves. The lock is on the repository's folder, which rt never removes. All that a call starts holds it too: where a
# call is killed and can not end rt, the next one waits until rt has ended.
take_lock() {
    exec {lock}<"$repository"
    flock --nonblock "$lock" && return
    say "waiting for another call, which proves and builds"
    attend flock "$lock"
}

release_lock() { exec {lock}<&-; }

# The number of crates that the program is built of.
crates_below() {
    awk -v program="$program" '
        function visit(crate,    names, n) {
            if (crate in seen || !(crate in uses)) return
            seen[crate]
            count++
            for (n = split(uses[crate], names, " "); n > 0; n--) visit(names[n])
        }
        { sub(/#.*/, "") }
        split($0, part, ":") > 1 { uses[part[1]] = part[2] }
        END { visit(program); print count + 0 }' "$repository/crates.txt"
}

# Has rt prove and build the program, and says which crates it has proved; what else rt says is kept. It names no crate that was proved before.
# rt keeps what it has proved when it is ended. All that rt starts holds the pipe as its file 3.
prove() {
    local all begun=$SECONDS crate='' done=0 line prover status=0
    all=$(crates_below)
    say "proving and building the program: $all crates, some minutes if none is proved yet"
    mkfifo "$room/lines"
    (cd "$repository/crates/$program" && TMPDIR=$room exec setsid rt run) >"$room/lines" 2>&1 3>&1 </dev/null &
    prover=$!
    exec {lines}<"$room/lines"
    while IFS= read -r line <&"$lines"; do
        echo "$line" >>"$room/rt.txt"
        if [[ $line =~ ^crate\ ([a-z0-9_]+): ]]; then
            crate=${BASH_REMATCH[1]}
        elif [[ $line = logic=proved\ * ]]; then
            done=$((done + 1))
            say "proved $done of at most $all: $crate ($((SECONDS - begun)) s)"
            begun=$SECONDS
        fi
    done
    exec {lines}<&-
    lines=''
    rm "$room/lines"
    wait "$prover" || status=$?
    # rt has run the program too, in the crate's folder.
    rm -f "$repository/crates/$program/written"
    return "$status"
}

# Proves the sources, and keeps the program unless they have changed meanwhile.
build() {
    local wanted=$digest
    command -v rt >/dev/null || leave "$NOT_BUILT" "the program is not built, and rt, which proves and builds it, is not on the path"
    if ! prove; then
        # Without the lines on what is proved.
        grep -vE '^(fn .*: proved$|checked |(library|statements|axioms|crate) |logic |logic=proved |rt: (chose|[a-z0-9_]+: begins) )' "$room/rt.txt" >&2 || :
        leave "$NOT_BUILT" "the program is not built: see above"
    fi
    is_built || [ "$digest" = "$wanted" ] || return 0
    keep_program "$program" "$wanted" || leave "$NOT_BUILT" "the program can not be kept"
}

make_program() {
    is_built && return
    take_lock
    until is_built; do build; done
    release_lock
}

# ---- a call

# Copies a file to where the program opens it.
copy() { # WHAT FILE
    local from=$2
    [ -e "$2" ] || wrong_use "there is no $1 file $2"
    [ ! -d "$2" ] || wrong_use "the $1 file $2 is a folder"
    [ -r "$2" ] || wrong_use "the $1 file $2 can not be read"
    [[ $from = /* ]] || from=./$from
    attend head -c "$MOST_BYTES" -- "$from" >"$room/files/$1.bin" || leave 1 "the $1 file $2 can not be copied"
}

# The documents' sentence for a refusal.
sentence() { # NUMBER
    sed -n "s/^ *REFUSAL($1, \"\(.*\)\").*/\1/p" "$repository/host/analyser.h"
}

# Answers --help and --version.
answer_options() {
    case ${1-} in
    --help) help || leave "$LOST" "the help could not be written" ;;
    --version) version || leave "$LOST" "the version could not be written" ;;
    *) return 0 ;;
    esac
    exit 0
}

# Runs the program on two files. Its text is printed once it is whole: the program makes the file `written` when it has written all of it.
run_program() { # CASE START [WORD..]
    local status=0 first number
    make_room
    copy case "$1"
    copy start "$2"
    make_program
    cd "$room/files" || exit
    attend "$built" "${@:3}" >"$room/text" || status=$?
    [ -e written ] || leave "$LOST" "output is lost: the program did not write its text (it ended with status $status)"
    # No program learns whether closing its output has failed.
    attend sync -d "$room/text" || leave "$LOST" "output is lost: the program's text did not come to the disk"
    attend cat "$room/text" || leave "$LOST" "output is lost: not all of the text could be written to standard output"
    read -r first number <"$room/text" || :
    [ "$first" != refused ] || leave "$REFUSED" "refused: $(sentence "$number")"
}

need_decimal() { # TEXT WHAT
    case $1 in '' | *[!0-9]*) wrong_use "'$1' is no decimal number of $2" ;; esac
}

# A call of a script that takes the number of a start too, and a number of rounds if it takes four arguments: runs the program on two files,
# the numbers that are given being its arguments.
run_on_start() { # MOST-ARGUMENTS CASE START NUMBER [ROUNDS]
    local most=$1
    shift
    case $# in
    0) wrong_use "a case file, a start file and the number of a start are missing" ;;
    1) wrong_use "a start file and the number of a start are missing" ;;
    2) wrong_use "the number of a start is missing" ;;
    *) [ $# -le "$most" ] || wrong_use "there are $# arguments" ;;
    esac
    need_decimal "$3" "a start"
    [ $# -eq 3 ] || need_decimal "$4" "rounds"
    run_program "$@"
}
