#!/usr/bin/env bash
# Times one transaction of hc_txn through a desk of the transaction machine, by the program hc_bench at its whole size: 50,000 scattered
# point reads in hundredths of as many ascending ones, the same of writes, and 1,000 savepoints among 50,000 writes in hundredths of
# those among 50. Then the memory of an own write, where GNU time is there: by how much the peak memory of a transaction of
# 100,000 writes is above that of one of 1,000. The program is proved and built first where a source has changed.
cd "$(dirname "$0")/../crates/hc_bench" || exit 1

if ! command -v rt >/dev/null; then
    echo "bench/transaction.sh: there is no command 'rt': the toolchain is missing" >&2
    exit 127
fi
log=$(mktemp) || exit 1
trap 'rm -f "$log"' EXIT
rt run >/dev/null 2>"$log" </dev/null || { cat "$log" >&2; exit 1; }
./out/hc_bench whole 2>&1 >/dev/null </dev/null | grep 'in a transaction\|savepoints'
if [ -x /usr/bin/time ]; then
    few=$(/usr/bin/time -f %M ./out/hc_bench few writes in one 2>&1 >/dev/null </dev/null)
    many=$(/usr/bin/time -f %M ./out/hc_bench very many writes in one 2>&1 >/dev/null </dev/null)
    echo "an own write: $(((many - few) * 1024 / 99000)) bytes"
fi
