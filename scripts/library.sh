#!/usr/bin/env bash
# Builds the proved library for C and Rust, crates/exports/out/libexports.a: where `rt ci` has run last, over the libraries that it has proved, and
# else by `rt lib`, which first proves what is not proved yet.
set -euo pipefail
cd "$(dirname "$(readlink -f "$0")")/../crates/exports"

# `rt check` and `rt lib` stamp the libraries that they build. `rt ci` does not, and so `rt lib` would prove them all once more.
by_rt_ci() {
    [ -d ../limits/out/rlib/limits.rlib ] && ! compgen -G '../*/out/rlib/stamp' >/dev/null
}

# Proves the exports and builds them over these libraries, as `rt lib` does.
build() {
    local kit library uses words
    kit=$(dirname "$(rt doc)")
    words=(--extern "std=$kit/rlibs/std.rlib" -L "dependency=$kit/rlibs")
    read -ra uses < <(sed -n 's/^exports staticlib://p' ../../crates.txt)
    for library in "${uses[@]}"; do
        words+=(--extern "$library=$PWD/../$library/out/rlib/$library.rlib")
    done
    for library in ../*/out/rlib; do
        words+=(-L "dependency=$PWD/$library")
    done
    mkdir -p out
    "$kit/bin/rattle" build --crate-name exports src/lib.rt "${words[@]}" --antt-project "$kit/rattle/logic/antt-project.json" \
        --logic-built "$kit/logic_built" --links exports= --crate-type staticlib --toolchain "$kit/toolchain" --backend llvm \
        -o out/libexports.a
}

if ! by_rt_ci || ! build; then
    rt lib
fi
