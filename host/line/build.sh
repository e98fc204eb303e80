#!/usr/bin/env bash
# build.sh LIBRARY FOLDER: encoder, bench and program from host/line, with the libraries in LIBRARY, into FOLDER. It needs gcc alone.
set -euo pipefail
[ $# = 2 ] || { echo 'build.sh LIBRARY FOLDER' >&2; exit 2; }
here=$(cd "$(dirname "$0")" && pwd)
library=$1
folder=$2

# A program of these sources and libraries; it has the first source's name.
build() {
    local files=() name
    for name in $1; do files+=("$here/$name.c"); done
    gcc -std=c11 -O2 -Wall -Wextra -Werror -pedantic -I "$here/.." "${files[@]}" -L "$library" $2 -o "$folder/${1%% *}"
}

mkdir -p "$folder"
build 'encoder keep port tool' '-lquicksetter'
build 'bench master words port tool' '-lquicksetter'
build 'program label master words port tool' '-lhandheld -lquicksetter'
