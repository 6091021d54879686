#!/bin/sh
# A shop's month: makes a folder of lanes and answers demo/month.jsonl at once by the program as it is
# written, then proves and builds the program, and answers again by what was proved, twice, to show that
# keys act once.
#
#   sh demo.sh            both
#   sh demo.sh --quick    the first answers alone, in some minutes
set -eu
cd "$(dirname "$0")"
export LC_ALL=C

billd=crates/billd/out/billd
lines=$PWD/demo/month.jsonl
work=$(mktemp -d)
gateway=
trap '[ -z "$gateway" ] || kill "$gateway"; rm -rf "$work"' EXIT

case "${1-}" in
'' | --quick) ;;
*)
    echo "usage: sh demo.sh [--quick]" >&2
    exit 2
    ;;
esac

# A gateway on this machine, which accepts each order.
python3 demo/gateway.py "$work/port" &
gateway=$!
until [ -s "$work/port" ]; do sleep 0.1; done
peer=127.0.0.1:$(cat "$work/port")

# The words that make a folder's lanes, and those that answer lines.
init_words() {
    echo "init --dir $1 --lanes 2 --catalog $PWD/demo/catalog.toml --overdue $PWD/demo/overdue.toml"
}
apply_words() {
    echo "apply --dir $1 --gateway $peer"
}

# Each line with what it means, and its answer.
print_answers() {
    paste -d '\n' demo/month.txt "$lines" "$1" | awk '
        NR % 3 == 1 { printf "    %s\n", $0 }
        NR % 3 == 2 { printf "      > %s\n", $0 }
        NR % 3 == 0 { printf "      < %s\n", $0 }'
}

# The bytes of each lane's journal.
print_journals() {
    (cd "$1" && wc -c lane-*.kbj | sed 's/^/    /')
}

# The minutes since the script began, and the disk that the toolchain's folders out/ take.
began=$(date +%s)
print_cost() {
    seconds=$(($(date +%s) - began))
    disk=$(du -cm crates/*/out 2>/dev/null | awk 'END { print $1 + 0 }')
    echo "    after $((seconds / 60)) min $((seconds % 60)) s; out/ takes $disk MB"
}

# Runs the program as it is written, compiled once: on the words that make the lanes of a folder, and then on
# those that answer the lines, whose answers it prints.
try_month() {
    mkdir "$work/cases"
    : >"$work/cases/1-init"
    init_words "$1" | tr ' ' '\n' >"$work/cases/1-init.args"
    cp "$lines" "$work/cases/2-month"
    apply_words "$1" | tr ' ' '\n' >"$work/cases/2-month.args"
    if ! (cd crates/billd && rt try --cases "$work/cases") >"$work/printed" 2>"$work/tried"; then
        tail -n 20 "$work/tried" >&2
        echo "demo.sh: the program couldn't be tried" >&2
        exit 1
    fi
    sed '1,/^== 2-month$/d' "$work/printed"
}

echo "1. The program as it is written. Nothing is proved yet: the toolchain only compiles it."
mkdir "$work/first"
try_month "$work/first" >"$work/answers"
print_answers "$work/answers"
print_journals "$work/first"
print_cost
[ "${1-}" != --quick ] || exit 0

echo
echo "2. The proof of the program and of each library below it, then the build. It is kept in out/."
mkdir "$work/second"
words=$(init_words "$work/second")
{
    status=0
    # shellcheck disable=SC2086
    (cd crates/billd && rt run -- $words) 2>&1 || status=$?
    echo "$status" >"$work/status"
} | tee "$work/built" | grep --line-buffered -E '^(rt: |so far: [0-9])' | sed -u 's/^/    /' || true
if [ "$(cat "$work/status")" -ne 0 ]; then
    tail -n 20 "$work/built" >&2
    echo "demo.sh: billd isn't proved" >&2
    exit 1
fi

echo
echo "3. The proved program, $billd:"
# shellcheck disable=SC2046
"$billd" $(apply_words "$work/second") <"$lines" >"$work/answers"
print_answers "$work/answers"
print_journals "$work/second"
print_cost

echo
echo "4. The same lines again. Each key has acted: a command gets its answer, and no byte is added."
# shellcheck disable=SC2046
"$billd" $(apply_words "$work/second") <"$lines" >"$work/again"
grep -c '"command":' "$work/again" | sed 's/$/ answers to commands/; s/^/    /'
print_journals "$work/second"

echo
echo "5. How the accounts stand:"
for kind in balances arrears states; do
    echo "    $kind"
    "$billd" report --dir "$work/second" --kind "$kind" --day 2024-03-31 | sed 's/^/      /'
done
