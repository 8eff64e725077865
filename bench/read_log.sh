#!/usr/bin/env bash
# Times the read log of hc_range, by the program hc_bench: a line for each part, with what it did and how
# long that took. The program is proved and built first where a source has changed.
cd "$(dirname "$0")/../crates/hc_bench" || exit 1

if ! command -v rt >/dev/null; then
    echo "bench/read_log.sh: there is no command 'rt': the toolchain is missing" >&2
    exit 127
fi
log=$(mktemp) || exit 1
trap 'rm -f "$log"' EXIT
rt run >/dev/null 2>"$log" </dev/null || { cat "$log" >&2; exit 1; }
./out/hc_bench 2>&1 >/dev/null </dev/null | grep -e 'added in' -e covered
