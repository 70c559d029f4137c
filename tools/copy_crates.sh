#!/usr/bin/env bash
# Copies a crate and those below it to a repository elsewhere, so that a program can be proved over them outside the tree.
#     tools/copy_crates.sh CRATE FOLDER PROGRAM [LIBRARY..]
# FOLDER then lists them in its crates.txt, and PROGRAM, whose src/ is there and empty, above them and these libraries of the kit.
# CRATE has to be one that stands on crates of the repository alone.
set -eu
root=$(cd "$(dirname "$0")/.." && pwd -P)
crate=$1
folder=$2
program=$3
shift 3
if [ -z "$folder" ] || [ -e "$folder/crates.txt" ]; then
    echo "copy_crates: '$folder' is no folder for a new repository" >&2
    exit 2
fi
below=$(sed -n "s/^$crate: *//p" "$root/crates.txt")
for each in $below "$crate"; do
    if ! grep -q "^$each:" "$root/crates.txt"; then
        echo "copy_crates: $each is no crate of this repository" >&2
        exit 2
    fi
    mkdir -p "$folder/crates/$each"
    for part in src specs proofs; do
        if [ -d "$root/crates/$each/$part" ]; then
            cp -r "$root/crates/$each/$part" "$folder/crates/$each/"
        fi
    done
    grep "^$each:" "$root/crates.txt" >>"$folder/crates.txt"
done
echo "$program: $below $crate $*" >>"$folder/crates.txt"
mkdir -p "$folder/crates/$program/src"
