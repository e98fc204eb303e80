#!/usr/bin/env bash
# here.sh answer | library: what the kit builds is for x86-64; this makes it usable on the machine at hand, in target/here. gcc, cargo and python3 take it from there.
#   answer     the answer program, as the last `rt ci` at the top or `rt run` in crates/answer left it; on another processor with Debian's emulator
#   library    libquicksetter.a and libhandheld.a themselves; on another processor the module of each, compiled once more by the kit's clang. And
#              target/libquicksetter.so of the first, which explain.py has its judge from
# These are copies, since rt ci takes no link below the checkout. module.sh tells what that rests on. Today's kit runs on x86-64 alone: the ways for another processor were taken with an older one.
set -euo pipefail
cd "$(dirname "$0")/.."
machine=$(uname -m)
here=target/here
home=$(dirname "$(dirname "$(readlink -f "$(command -v rt)")")")
fail() { echo "here.sh: $*" >&2; exit 1; }
mkdir -p "$here"

answer() {
    local built=crates/answer/out/answer
    [ -x "$built" ] || fail "there is no $built: rt ci, or rt run in crates/answer, makes it"
    rm -f "$here/answer"
    if [ "$machine" = x86_64 ]; then
        cp "$built" "$here/answer"
        return
    fi
    local emulator lib=$home/toolchain/lib
    emulator=$(command -v qemu-x86_64) || fail "this machine is $machine, and there is no qemu-x86_64 (of Debian's qemu-user)"
    printf '#!/bin/sh\nexec "%s" "%s" --library-path "%s" "%s" "$@"\n' \
        "$emulator" "$lib/ld-linux-x86-64.so.2" "$lib" "$PWD/$built" >"$here/answer"
    chmod +x "$here/answer"
}

# The module of a proved library, compiled for this machine as rattle has it compiled for its own.
compiled_here() {
    local triple
    triple=$(gcc -dumpmachine)
    bash tools/module.sh --compile "$1" "$triple" "$work/$1.o" -O3 -fPIC
    rm -f "$here/lib$1.a"
    "$home/toolchain/bin/llvm-ar" rcsD "$here/lib$1.a" "$work/$1.o"
    echo "here.sh: this machine is $machine: the module of the proved lib$1.a, compiled for $triple, stands in its place"
}

# Proves a library, and puts what is used of it on this machine into target/here.
proved() {
    bash tools/module.sh "$1"
    if [ "$machine" = x86_64 ]; then
        rm -f "$here/lib$1.a"
        cp "target/staticlib/lib$1.a" "$here/"
    else
        compiled_here "$1"
    fi
}

library() {
    work=$(mktemp -d)
    trap 'rm -rf "$work"' EXIT
    proved quicksetter
    proved handheld
    gcc -shared -Wl,--whole-archive "$here/libquicksetter.a" -Wl,--no-whole-archive -o target/libquicksetter.so
}

case ${1:-} in
answer | library) "$1" ;;
*) fail "answer or library?" ;;
esac
