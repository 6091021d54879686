#!/bin/sh
# Tries the wrong programs in edits/, which the gate doesn't try. Each must be refused.
#
#   sh edits/try.sh             all of them, which takes hours
#   sh edits/try.sh CRATE ..    those of some crates
#
# It works in a copy, so nothing changes here.
set -eu
cd "$(dirname "$0")/.."

if [ $# -eq 0 ]; then
    for folder in edits/*/; do
        set -- "$@" "$(basename "$folder")"
    done
fi

work=$(mktemp -d)
trap 'rm -rf "$work"' EXIT
git ls-files -z crates crates.txt HANDLES |
    tar --null --files-from=- --create |
    tar --extract --directory="$work"
for crate in "$@"; do
    rm -rf "$work/crates/$crate/must-fail"
    cp -R "edits/$crate" "$work/crates/$crate/must-fail"
done
cd "$work"
rt must-fail "$@"
