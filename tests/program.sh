#!/usr/bin/env bash
# The built program on the real streams: the examples, the command line, bad input, and streams
# that fail. It prints a line for each check that fails, and a last line with the count.
set -u
cd "$(dirname "$0")/.." || exit 1

program=./hctree
work=$(mktemp -d) || exit 1
trap 'rm -rf "$work"' EXIT
checks=0
failures=0

# check NAME WANTED FOUND
check() {
    checks=$((checks + 1))
    if [ "$2" != "$3" ]; then
        failures=$((failures + 1))
        printf 'tests/program.sh: %s: wanted %s, found %s\n' "$1" "$2" "$3"
    fi
}

# run NAME STATUS WORDS..: runs the program on $work/in, and checks its status and that a fault has
# one line on standard error and nothing on standard output.
run() {
    local name=$1 status=$2
    shift 2
    "$program" "$@" <"$work/in" >"$work/out" 2>"$work/err"
    check "$name: status" "$status" "$?"
    if [ "$status" -eq 0 ]; then
        check "$name: fault lines" 0 "$(wc -l <"$work/err")"
    else
        check "$name: fault lines" 1 "$(wc -l <"$work/err")"
        check "$name: bytes on standard output" 0 "$(wc -c <"$work/out")"
    fi
}

# The first start may build the program and say so.
if ! "$program" --version >/dev/null 2>"$work/err"; then
    cat "$work/err" >&2
    exit 1
fi

for script in examples/*.sql; do
    cp "$script" "$work/in"
    run "$script" 0 --mode step
    check "$script: output" "$(cat "${script%.sql}.out")" "$(cat "$work/out")"
done

: >"$work/in"
run 'an empty input' 0
check 'an empty input: bytes' 0 "$(wc -c <"$work/out")"

for word in --help -h --version -V; do
    run "$word" 0 --nonsense "$word"
    check "$word: is answered" yes "$([ -s "$work/out" ] && echo yes)"
done
run 'an unknown word' 4 --nonsense
run 'a mode without its name' 4 --mode
run 'another mode' 4 --mode run
run 'a mode in one word' 4 --mode=step
run 'a word too many' 4 --mode step step
run 'a word that is no UTF-8' 4 $'\xff'
run 'a word of two lines' 4 $'a\nb'
run 'another mode and a word more' 4 --mode run more
check 'another mode and a word more: the first unfit word is named' yes \
    "$(grep -q '"run"' "$work/err" && echo yes)"

printf 'DELETE' >"$work/in"
run 'another statement' 1
check 'another statement: its place is told' yes \
    "$(grep -q 'byte 0, line 1, column 1' "$work/err" && echo yes)"
printf 'SELECT v FROM t WHERE id=1;\377' >"$work/in"
run 'broken UTF-8' 1
printf 'SELECT v FROM t WHERE id=1;\0' >"$work/in"
run 'a byte 0' 1
head -c 17000000 /dev/zero | tr '\0' '\n' >"$work/in"
run '17 MB of line feeds' 1
head -c 16777216 "$work/in" >"$work/cut" && mv "$work/cut" "$work/in"
run 'as many line feeds as an input may have' 0
yes 'SELECT v FROM t WHERE id=1;' | head -n 65536 >"$work/in"
run '65,536 statements' 1
head -n 65535 "$work/in" >"$work/cut" && mv "$work/cut" "$work/in"
run '65,535 statements' 0
check '65,535 statements: lines' 131071 "$(wc -l <"$work/out")"

# Streams that fail. The input is now one with a long output.
"$program" </ >"$work/out" 2>"$work/err"
check 'a folder as standard input: status' 2 "$?"
check 'a folder as standard input: fault lines' 1 "$(wc -l <"$work/err")"
check 'a folder as standard input: bytes' 0 "$(wc -c <"$work/out")"
"$program" <&- >"$work/out" 2>"$work/err"
check 'a closed standard input: status' 2 "$?"
check 'a closed standard input: fault lines' 1 "$(wc -l <"$work/err")"
check 'a closed standard input: bytes' 0 "$(wc -c <"$work/out")"
if [ -c /dev/full ]; then
    "$program" <"$work/in" >/dev/full 2>"$work/err"
    check 'a full device: status' 3 "$?"
    check 'a full device: fault lines' 1 "$(wc -l <"$work/err")"
    "$program" --help >/dev/full 2>"$work/err"
    check 'a full device and --help: status' 3 "$?"
    check 'a full device and --help: fault lines' 1 "$(wc -l <"$work/err")"
fi
"$program" <"$work/in" >&- 2>"$work/err"
check 'a closed standard output: status' 3 "$?"
check 'a closed standard output: fault lines' 1 "$(wc -l <"$work/err")"
{
    "$program" <"$work/in" 2>"$work/err"
    echo "$?" >"$work/status"
} | head -n 1 >"$work/out"
check 'a pipe that its reader closes: status' 3 "$(cat "$work/status")"
check 'a pipe that its reader closes: fault lines' 1 "$(wc -l <"$work/err")"
check 'a pipe that its reader closes: what came through' 'conn 0' "$(cat "$work/out")"

printf 'tests/program.sh: %s checks, %s failed\n' "$checks" "$failures"
[ "$failures" -eq 0 ]
