#!/bin/sh
# Prints what a run of the gate from nothing costs: processor minutes by crate and kind of work. It tests
# nothing.
#
#   sh bench/gate.sh             all crates
#   sh bench/gate.sh kb_money    kb_money, and the crates below it
set -eu
cd "$(dirname "$0")/.."
exec python3 bench/gate.py rt ci "$@" --anew
