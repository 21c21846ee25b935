# shellcheck shell=bash disable=SC2154
# Where the built programs stand, for scripts/program.sh and the gate, which have set `repository`. Each state of the sources has a copy of its
# own, never written again: nothing changes beneath a call that runs it.

# The digest of all that a program is built of.
sources() {
    (cd "$repository" && find crates crates.txt -regextype posix-extended -regex 'crates/[^/]+/(out|written)' -prune -o -type f -print0 |
        LC_ALL=C sort -z | xargs -0 sha256sum | sha256sum | cut -c 1-16)
}

program_of() { # PROGRAM DIGEST
    echo "$repository/target/built/$1-$2"
}

# Keeps a program that rt has proved and built, of the sources with this digest.
keep_program() { # PROGRAM DIGEST
    local kept
    kept=$(program_of "$1" "$2")
    mkdir -p "${kept%/*}" && cp "$repository/crates/$1/out/$1" "$kept.new" && mv "$kept.new" "$kept"
}
