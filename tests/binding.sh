#!/usr/bin/env bash
# Names against SQLite itself. The tests of hc_bind (in hc_bind_tests) have statements with their bound forms or faults; SQLite
# compiles what is bound here, and refuses what is refused here, but that it has no classes, lets a column be named twice, and
# takes the statements of a list.
cd "$(dirname "$0")/.." || exit 1
if ! command -v python3 >/dev/null || ! python3 -c 'import sqlite3' 2>/dev/null; then
    echo "tests/binding.sh: skipped, since python3 with sqlite3 is missing"
    exit 0
fi
python3 - crates/hc_bind_tests/src/*cases.rt <<'PYTHON'
import re
import sqlite3
import sys

source = "\n".join(open(name, encoding="utf8").read() for name in sys.argv[1:])
text = r'"((?:[^"\\]|\\.)*)"'
refusals = re.compile(
    "no table |no column |no function |.* is ambiguous$|an aggregate or a column where none may be$|[0-9]+ values where |no item has the number "
)
# what only this engine refuses
ours = re.compile("mixed classes of values$|column .* is named twice$|a term of ORDER BY is no item$")
listed = {
    "DELETE FROM t WHERE rowid = 1": "there the row's number has a name",
    'DELETE FROM t WHERE "nope"': "there a name in quotes that means nothing is a text",
    "DELETE FROM t WHERE min(v, id)": "there `min` of several values is a function of a row",
    "DELETE FROM t WHERE substr(s, 1)": "there are more functions",
    "SELECT 1 FROM T, t": "there two tables of FROM may be called the same",
    "SELECT 1 FROM t AS x, u AS X": "there two tables of FROM may be called the same",
    "SELECT 1 FROM t AS u, u": "there two tables of FROM may be called the same",
    "SELECT v FROM t ORDER BY 9223372036854775807": "there a number past 32 bits is an expression",
    "SELECT v AS x FROM t ORDER BY x + 1": "there an alias has a meaning in an expression too",
    "SELECT v AS x FROM t ORDER BY +x": "there an alias has a meaning in an expression too",
}

database = sqlite3.connect(":memory:")
database.execute("CREATE TABLE t(id INTEGER PRIMARY KEY, v INTEGER, s TEXT, b BLOB)")
database.execute("CREATE TABLE u(id INTEGER PRIMARY KEY, v INTEGER, w TEXT)")
database.execute('CREATE TABLE k(a TEXT, "order" INTEGER)')

failed = 0
kinds = {"bound": 0, "refused": 0, "refused here alone": 0}
for statement, answer in re.findall(r"\(\s*" + text + r",\s*" + text + r",?\s*\)", source):
    statement = re.sub(r"\\(.)", r"\1", statement)
    if answer == "a query with groups":
        continue
    try:
        database.execute("EXPLAIN " + statement)
        compiles = True
    except sqlite3.Error:
        compiles = False
    if ours.match(answer) or (statement in listed and compiles):
        kinds["refused here alone"] += 1
    elif compiles == bool(refusals.match(answer)):
        failed += 1
        print(f"tests/binding.sh: {statement}: {answer} here, {'compiles' if compiles else 'is refused'} in SQLite")
    else:
        kinds["refused" if refusals.match(answer) else "bound"] += 1

print("tests/binding.sh:", ", ".join(f"{n} {kind}" for kind, n in kinds.items()) + f", {failed} failed")
sys.exit(failed > 0)
PYTHON
