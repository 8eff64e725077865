#!/usr/bin/env bash
# The program against SQLite itself: made scripts with many ids that come again, whose statements SQLite
# runs as they are. Its rows, counts and refusals are put into the output form, with the endings that
# this test counts, and the two outputs have to be the same bytes.
set -u
cd "$(dirname "$0")/.." || exit 1

# The number of an error is told from Python 3.11 on.
if ! python3 -c 'import sqlite3, sys; sys.exit(sys.version_info < (3, 11))' 2>/dev/null; then
    echo 'tests/sqlite.sh: skipped, since there is no python3 from 3.11 on with sqlite3'
    exit 0
fi
work=$(mktemp -d) || exit 1
trap 'rm -rf "$work"' EXIT

# make SEED STATEMENTS IDS: writes $work/script and $work/wanted.
make() {
    python3 - "$work" "$@" <<'PYTHON'
import random
import sqlite3
import sys

folder, seed, statements, ids = sys.argv[1], *map(int, sys.argv[2:])
greatest = 2**63 - 1
random.seed(seed)
known = [0, greatest] + [random.randint(0, greatest) for _ in range(ids)]
database = sqlite3.connect(":memory:")
database.execute("CREATE TABLE t(id INTEGER PRIMARY KEY, v INTEGER)")
commits = 0
script = []
wanted = ["conn 0"]
for _ in range(statements):
    key = random.choice(known)
    is_insert = random.random() < 0.5
    if is_insert:
        value = random.choice([0, greatest, random.randint(0, greatest)])
        statement = f"INSERT INTO t VALUES({key},{value});"
    else:
        statement = f"SELECT v FROM t WHERE id={key};"
    script += [statement, random.choice(["", " ", "\n", "\n \n"])]
    try:
        cursor = database.execute(statement)
    except sqlite3.IntegrityError as error:
        wanted += [f"error {error.sqlite_errorcode} 't' 'id'", f"rolled back {commits}"]
        continue
    if is_insert:
        commits += 1
        wanted += [f"ok {cursor.rowcount}", f"commit {commits}"]
    else:
        rows = cursor.fetchall()
        wanted += [f"row {row[0]}" for row in rows]
        wanted += [f"ok {len(rows)}", f"snapshot {commits}"]
with open(f"{folder}/script", "w") as file:
    file.write("".join(script))
with open(f"{folder}/wanted", "w") as file:
    file.write("\n".join(wanted) + "\n")
PYTHON
}

# agrees SEED STATEMENTS IDS: whether the program ends well, with the bytes that are wanted.
agrees() {
    rm -f "$work/script" "$work/wanted"
    make "$@" || return 1
    ./hctree --mode step <"$work/script" >"$work/found" || return 1
    cmp "$work/found" "$work/wanted"
}

failures=0
for sizes in '1 10 3' '2 1000 5' '3 1000 400' '4 65535 20000'; do
    # The three numbers are words of their own.
    # shellcheck disable=SC2086
    if ! agrees $sizes; then
        failures=$((failures + 1))
        echo "tests/sqlite.sh: the outputs differ for seed, statements and ids $sizes"
    fi
done
echo "tests/sqlite.sh: 4 scripts, $failures failed"
[ "$failures" -eq 0 ]
