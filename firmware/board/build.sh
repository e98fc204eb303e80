#!/usr/bin/env bash
# build.sh LIBRARIES CORE ELF [WORD...]: the bare board's firmware for a core of cores.txt, with the libraries that firmware/build.sh put into LIBRARIES. WORDs are the
# compiler's, -DTOTAL=8 for one. It needs the kit alone; another compiler for the core takes the same files.
set -euo pipefail
[ $# -ge 3 ] || { echo 'build.sh LIBRARIES CORE ELF [WORD...]' >&2; exit 2; }
here=$(cd "$(dirname "$0")" && pwd)
library=$1/$2
core=$2
elf=$3
tools=$(dirname "$(dirname "$(readlink -f "$(command -v rt)")")")/toolchain/bin
work=$(mktemp -d)
trap 'rm -rf "$work"' EXIT
read -r triple line < <(sed -nE "s/^$core +//p" "$here/../cores.txt")
read -ra words <<<"$line"

for source in "$here"/*.c; do
    builtin=()
    [ "${source##*/}" != memory.c ] || builtin=(-fno-builtin) # it has them itself
    "$tools/clang" --target="$triple" "${words[@]}" --no-default-config -std=c11 -Wall -Wextra -Werror -nostdinc -isystem "$here/../include" -I "$library" \
        -ffunction-sections -fdata-sections "${builtin[@]}" "${@:4}" -c "$source" -o "$work/$(basename "$source" .c).o"
done
"$tools/ld.lld" --gc-sections --fatal-warnings -e 0 -T "$here/board.ld" "$work"/*.o "$library/libquicksetter.a" -o "$elf"
