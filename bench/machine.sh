#!/usr/bin/env bash
# Times a desk of the transaction machine, by the program hc_bench at its whole size: how long 100,000 commits of one key
# take, and how long one takes among 100,000 keys, in hundredths of one among 1,000; the same of a read of about 1,000 cells,
# and of a put among 50,000 writes against 500. Then the memory of a version, where GNU time is there: by how much the peak
# memory of 100,000 commits is above that of 1,000. The program is proved and built first where a source has changed.
cd "$(dirname "$0")/../crates/hc_bench" || exit 1

if ! command -v rt >/dev/null; then
    echo "bench/machine.sh: there is no command 'rt': the toolchain is missing" >&2
    exit 127
fi
log=$(mktemp) || exit 1
trap 'rm -f "$log"' EXIT
rt run >/dev/null 2>"$log" </dev/null || { cat "$log" >&2; exit 1; }
./out/hc_bench whole 2>&1 >/dev/null </dev/null | grep -v covered | grep -v 'added in'
if [ -x /usr/bin/time ]; then
    few=$(/usr/bin/time -f %M ./out/hc_bench few versions 2>&1 >/dev/null </dev/null)
    many=$(/usr/bin/time -f %M ./out/hc_bench very many versions 2>&1 >/dev/null </dev/null)
    echo "a version: $(((many - few) * 1024 / 99000)) bytes"
fi
