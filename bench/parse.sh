#!/usr/bin/env bash
# Times the reading of SQL by the program hc_parse_bench: a script of ordinary statements, the peak memory of single
# statements of 16 MB, as ratios to their size, and 100 levels of each kind within 512 KB of stack. The program is
# proved and built first where a source has changed.
cd "$(dirname "$0")/../crates/hc_parse_bench" || exit 1

if ! command -v rt >/dev/null; then
    echo "bench/parse.sh: there is no command 'rt': the toolchain is missing" >&2
    exit 127
fi
log=$(mktemp) || exit 1
trap 'rm -f "$log"' EXIT
rt run >/dev/null 2>"$log" </dev/null || { cat "$log" >&2; exit 1; }

# The peak of a run in KB, as the kernel counts it.
peak() {
    python3 - "$@" <<'PYTHON'
import resource, subprocess, sys
subprocess.run(["./out/hc_parse_bench", *sys.argv[1:]], stdout=subprocess.DEVNULL, stderr=subprocess.DEVNULL, check=True)
print(resource.getrusage(resource.RUSAGE_CHILDREN).ru_maxrss)
PYTHON
}

./out/hc_parse_bench times 32000000 2>&1 >/dev/null
size=16000000
for shape in items members sets calls nested names texts rows terms opened parentheses operators; do
    kilobytes=$(peak shape "$shape" "$size") || exit 1
    echo "peak memory of $shape: $((kilobytes * 1024 / size)) times the statement"
done
for kind in parentheses negations minuses pluses calls "later arguments" members sums "all levels"; do
    answer=$( (ulimit -s 512; ./out/hc_parse_bench levels "$kind") 2>&1) || answer="$kind: stack overflow"
    echo "within 512 KB of stack: $answer"
done
