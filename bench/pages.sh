#!/usr/bin/env bash
# Times look-ups in a leaf, puts into it, plans, and steps on a region, by the program hc_page_bench: a line for each part,
# as a ratio. The program is proved and built first where a source has changed.
cd "$(dirname "$0")/../crates/hc_page_bench" || exit 1

if ! command -v rt >/dev/null; then
    echo "bench/pages.sh: there is no command 'rt': the toolchain is missing" >&2
    exit 127
fi
log=$(mktemp) || exit 1
trap 'rm -f "$log"' EXIT
rt run >/dev/null 2>"$log" </dev/null || { cat "$log" >&2; exit 1; }
exec ./out/hc_page_bench 2>&1 >/dev/null </dev/null
