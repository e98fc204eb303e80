#!/usr/bin/env bash
# module.sh NAME: proves a library, and leaves its archive, target/staticlib/libNAME.a, and the LLVM module of that as text, target/module/NAME.ll, for other processors.
# module.sh --check NAME: looks at that text once more.
# module.sh --compile NAME TRIPLE OBJECT WORD...: compiles it for another processor; WORDs are the compiler's.
# The module is the archive's own: compiled for x86-64 as rattle has it, the text must give the archive's object, byte for byte. And it must be as its compilation for
# another processor expects it: x86-64 stands in two target lines and in rattle's attributes of a function, which are replaced, and only numbers and pointers cross its exports.
# Where one of these is not so it stops, and tells what differs. Nothing of the kit is changed: a kit of links stands in its place. Beyond all that the back end for
# the other processor is to be believed.
set -euo pipefail
cd "$(dirname "$0")/.."
use() { sed -nE 's/^# (module\.sh[^:]*):.*/\1/p' "tools/module.sh" >&2; exit 2; }
case ${1:-} in
--check | --compile) does=${1#--}; shift ;;
*) does=prove ;;
esac
[ $# -ge 1 ] || use
name=$1
shift
home=$(dirname "$(dirname "$(readlink -f "$(command -v rt)")")")
clang=$home/toolchain/bin/clang
archive=target/staticlib/lib$name.a
text=target/module/$name.ll
fail() { echo "module.sh: the module of $name: $*" >&2; exit 1; }
work=$(mktemp -d)
trap 'rm -rf "$work"' EXIT

# A kit of links whose clang keeps a copy of each module that it is handed, and then is the kit's own. rt takes the kit from where its own two files lie: these are copied.
kit_that_keeps() {
    local kit=$1 kept=$2 file
    mkdir -p "$kit/bin" "$kit/toolchain/bin"
    for file in "$home"/* "$home"/bin/* "$home"/toolchain/* "$home"/toolchain/bin/*; do
        case ${file#"$home"} in
        /bin | /toolchain | /toolchain/bin | /toolchain/bin/clang) ;;
        /bin/rt | /bin/rtlib.py) cp "$file" "$kit/bin/" ;;
        *) ln -s "$file" "$kit${file#"$home"}" ;;
        esac
    done
    printf '#!/bin/sh\nfor word; do case $word in *.bc) cp "$word" "%s" ;; esac; done\nexec "%s" "$@"\n' "$kept" "$clang" >"$kit/toolchain/bin/clang"
    chmod +x "$kit/toolchain/bin/clang"
}

# The library, by the rt of a kit, for every x86-64: a static library does not look what its host's processor has, and the kit's default wants more.
built_by() {
    (cd "crates/$name" && "$1/bin/rt" lib --cpu x86-64)
}

# As rattle has clang called: TARGET FILE OBJECT WORD...
compile() {
    local more=()
    case $1 in aarch64*) more=(-mllvm -aarch64-load-store-renaming=false) ;; esac
    "$clang" --target="$1" -mllvm -no-trap-after-noreturn "${more[@]}" -ffunction-sections -fdata-sections -mllvm -trap-unreachable -mllvm -no-x86-call-frame-opt \
        -mllvm -disable-machine-licm -mllvm -disable-postra-machine-licm -mllvm -sink-common-insts=false --no-default-config -no-canonical-prefixes \
        -fno-crash-diagnostics -Werror -c -x ir "$2" -o "$3" "${@:4}"
}

# The archive's object once more, of the text.
is_the_archives() {
    compile x86_64-unknown-linux-gnu "$text" "$work/again.o" -march=x86-64 -O3 -fPIC
    "$home/toolchain/bin/llvm-ar" p "$archive" >"$work/archived.o"
    cmp "$work/archived.o" "$work/again.o" || fail "it does not give the archive's object"
}

# So many lines match a pattern; else those that do are told.
expect() {
    local found
    found=$(grep -nE "$3" "$text" || true)
    [ "$(printf %s "$found" | grep -c '^')" = "$1" ] && return
    printf '%s\n' "$found" | head -n 20 >&2
    fail "not as expected: $2: above are the lines that match '$3', and $1 should"
}

# Rattle's attributes of a function: one line, and one more for each hint on inlining that a function of the sources has.
hint='(alwaysinline |noinline )?'
for_x86=' "probe-stack"="inline-asm" "stack-probe-size"="3072" "target-cpu"="x86-64"'

is_as_expected() {
    local lines
    lines=$(grep -cE "^attributes #[0-9]+ = \{ ${hint}nounwind$for_x86 \}\$" "$text" || true)
    expect 2 'its head' '^target '
    expect 1 'its head' '^target triple = "x86_64-unknown-linux-gnu"$'
    [ "$lines" -gt 0 ] || fail "not as expected: its attributes: there are none of rattle's"
    expect "$lines" 'its attributes' '^attributes .*(target-|probe-)'
    expect $((lines + 1)) 'x86' 'x86'
    expect 0 'a word that depends on the machine' 'ptrtoint|inttoptr|addrspacecast|byval|sret|inreg| asm |<[0-9]+ x '
    expect 0 'an export that takes or returns more than numbers and pointers' '^define ([^@]*[^@a-z0-9 ][^@]*)?@[a-z]|^define [^@]*@[a-z][^(]*\([^)]*[{<[]'
    expect 0 'an export that returns a number under 32 bits' '^define (.* )?i(1|8|16) @[a-z]'
}

check() {
    [ -e "$text" ] || fail "there is no $text"
    is_as_expected
    is_the_archives
}

# First by the kit itself, which begins with what checks here have kept. Over that the kit of links compiles once more, in seconds, and its clang has the module.
prove() {
    built_by "$home"
    mkdir -p target/module target/staticlib
    cp "crates/$name/out/lib$name.a" "$archive"
    kit_that_keeps "$work/kit" "$work/module.bc"
    built_by "$work/kit" >"$work/log" 2>&1 || { cat "$work/log" >&2; fail "it was not compiled once more"; }
    [ -e "$work/module.bc" ] || fail "rattle compiled none"
    "$clang" --target=x86_64-unknown-linux-gnu --no-default-config -S -emit-llvm -Xclang -disable-llvm-passes -x ir "$work/module.bc" -o - |
        sed '/^; ModuleID = /d' >"$text" # it names this run's folder
    check
}

# The head is this processor's own; no attribute names another.
for_processor() {
    [ $# -ge 2 ] || use
    {
        "$clang" --target="$1" "${@:3}" --no-default-config -S -emit-llvm -x c /dev/null -o - | grep '^target '
        sed -E -e '/^target /d' -e "s/^(attributes #[0-9]+ = \{ ${hint}nounwind)$for_x86 \}\$/\1 }/" "$text"
    } >"$work/module.ll"
    compile "$1" "$work/module.ll" "$2" "${@:3}"
}

case $does in
prove | check) [ $# = 0 ] || use; "$does" ;;
compile) for_processor "$@" ;;
esac
