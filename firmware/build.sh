#!/usr/bin/env bash
# build.sh FOLDER [WORD...]: the proved libraries for Arm. For each core of cores.txt FOLDER/CORE has libquicksetter.a and libhandheld.a with their headers, and ABOUT.txt,
# which tells of what and how they were made. WORDs are added to the compiler's, for instance -mno-unaligned-access. With CORES in the environment it is for these alone.
# What is compiled is the very module of each proved archive, target/module/NAME.ll by tools/module.sh, which is looked at on every run; only what names x86-64 in it is
# replaced. It needs nothing but the kit.
set -euo pipefail
[ $# -ge 1 ] || { echo 'build.sh FOLDER [WORD...]' >&2; exit 2; }
mkdir -p "$1"
folder=$(cd "$1" && pwd)
shift
more=("$@")
cd "$(dirname "$0")/.."
home=$(dirname "$(dirname "$(readlink -f "$(command -v rt)")")")
tools=$home/toolchain/bin
clang=$tools/clang
fail() { echo "build.sh: $*" >&2; exit 1; }
work=$(mktemp -d)
trap 'rm -rf "$work"' EXIT
ln -s "$clang" "$work/llvm-nm" # one program, which goes by its name

# What a firmware may be asked for: bytes copied and filled, by Arm's names too, and, on a core without such instructions, shifts and products of 64 bits.
may_need='mem(cpy|move|set)|__aeabi_mem(cpy|move|set|clr)[48]?|__aeabi_(llsl|llsr|lmul)'

# Each export as its name and its types, of a module's definitions or of declarations: what stands beside a type, a name or a word of the ABI, is left out.
exports() {
    sed -nE 's/^(define|declare) +(dso_local |noundef |zeroext |local_unnamed_addr )*([a-z0-9]+) @([A-Za-z0-9_]+)\(([^)]*)\).*/\4: \3 (\5)/p' |
        sed -E 's/ (noundef|zeroext|signext)//g; s/ %[A-Za-z0-9_.]+//g; s/, +/, /g' | sort
}

# What C's compiler for this core makes of a header: every function that it declares, with the types it is called by.
declared() {
    local function
    {
        echo "#include \"$1\""
        echo 'void *const each[] = {'
        for function in $(sed -nE 's/^[a-z0-9_]+ \**(q[sp]_[a-z_]+)\(.*/\1/p' "$1"); do echo "(void *)$function,"; done
        echo '};'
    } >"$work/each.c"
    "$clang" --target="$triple" "${words[@]}" --no-default-config -ffreestanding -nostdinc -isystem firmware/include -I . -S -emit-llvm -Xclang -disable-llvm-passes \
        -x c "$work/each.c" -o - | exports
}

# The module with this core's head and attributes, compiled into an archive.
compiled() {
    local name=$1 header=$2
    exports <"target/module/$name.ll" >"$work/defined"
    declared "$header" >"$work/declared"
    [ -s "$work/defined" ] || fail "$core: no export of $name was found"
    diff "$work/defined" "$work/declared" >&2 || fail "$core: above, what $name exports (<) and what $header declares (>) differ"
    bash tools/module.sh --compile "$name" "$triple" "$work/$name.o" "${words[@]}" -fstack-size-section
    "$work/llvm-nm" -u "$work/$name.o" | sed 's/.* //' | sort >"$work/$name.needs"
    grep -vxE "$may_need" "$work/$name.needs" >&2 && fail "$core: $name needs what a firmware does not have: above"
    "$work/llvm-nm" "$work/$name.o" | grep -E ' [bBdD] ' >&2 && fail "$core: $name has data of its own: above"
    rm -f "$folder/$core/lib$name.a"
    "$tools/llvm-ar" rcsD "$folder/$core/lib$name.a" "$work/$name.o"
    cp "$header" "$folder/$core/"
}

commit() {
    local found
    found=$(git rev-parse HEAD 2>/dev/null) || { echo 'not known'; return; }
    [ -z "$(git status --porcelain)" ] && echo "$found" || echo "$found, with changes"
}

about() {
    echo "libquicksetter.a and libhandheld.a with their headers, for $core"
    echo "commit    $commit"
    echo "kit       $(cat "$home/KIT-ID")"
    echo "compiler  $("$clang" --version | head -n 1)"
    echo "target    $triple"
    echo "flags     ${words[*]}"
    for name in quicksetter handheld; do
        echo "module    $name $(sha256sum "target/module/$name.ll" | cut -d ' ' -f 1)"
        echo "needs     $name $(tr '\n' ' ' <"$work/$name.needs")"
    done
}

for name in quicksetter handheld; do bash tools/module.sh --check "$name"; done
commit=$(commit)
built=()
while read -r core triple line; do
    case " ${CORES:-$core} " in *" $core "*) built+=("$core") ;; *) continue ;; esac
    read -ra words <<<"$line"
    words+=("${more[@]}")
    mkdir -p "$folder/$core"
    compiled quicksetter host/quicksetter.h
    compiled handheld host/programmer.h
    about >"$folder/$core/ABOUT.txt"
done <firmware/cores.txt
[ ${#built[@]} -gt 0 ] || fail "no core of cores.txt is among $CORES"
echo "build.sh: both libraries for ${built[*]}, in $folder"
