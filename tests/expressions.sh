#!/usr/bin/env bash
# Expressions against SQLite itself. The tests of hc_expr (in hc_expr_tests) have expressions over literals with their values;
# SQLite gives the same. Where a result overflows, SQLite goes on in floating point, refuses, or does not look at the operand.
cd "$(dirname "$0")/.." || exit 1
if ! command -v python3 >/dev/null || ! python3 -c 'import sqlite3' 2>/dev/null; then
    echo "tests/expressions.sh: skipped, since python3 with sqlite3 is missing"
    exit 0
fi
python3 - crates/hc_expr_tests/src/cases.rt <<'PYTHON'
import re
import sqlite3
import sys

source = open(sys.argv[1], encoding="utf8").read()
text = r'"((?:[^"\\]|\\.)*)"'


def unescaped(literal):
    return re.sub(r"\\(.)", lambda m: {"n": "\n"}.get(m[1], m[1]), literal)


def shown(value):
    if value is None:
        return "NULL"
    if isinstance(value, int):
        return str(value)
    if isinstance(value, bytes):
        return f"X'{value.hex().upper()}'"
    if isinstance(value, str):
        return "'" + value.replace("'", "''") + "'"
    return "a float"


database = sqlite3.connect(":memory:")
pairs = re.findall(r"\(\s*" + text + r",\s*" + text + r",?\s*\)", source)
failed = 0
for expression, value in pairs:
    expression, value = unescaped(expression), unescaped(value)
    found = shown(database.execute("SELECT " + expression).fetchone()[0])
    if found != value:
        failed += 1
        print(f"tests/expressions.sh: {expression}: {value} here, {found} in SQLite")

tail = source[source.index("OVERFLOWS"):]
overflows = [unescaped(it) for it in re.findall(text, tail)]
kinds = {"a float": 0, "refused": 0, "not looked at": 0}
for expression in overflows:
    try:
        found = shown(database.execute("SELECT " + expression).fetchone()[0])
    except sqlite3.Error:
        found = "refused"
    kinds[found if found in kinds else "not looked at"] += 1

# The examples of docs/SQL.md: "`EXPRESSION` is VALUE", and rows of an expression and its value.
told = open("docs/SQL.md", encoding="utf8").read().replace("\\|", "|")
examples = re.findall(r"`([^`]+)` is (NULL|-?\d+)", told) + re.findall(r"(?m)^\| `([^`]+)` \| `(-?\d+|NULL)`", told)
for expression, value in examples:
    try:
        found = shown(database.execute("SELECT " + expression).fetchone()[0])
    except sqlite3.Error as error:
        found = f"refused ({error})"
    if found != value:
        failed += 1
        print(f"tests/expressions.sh: docs/SQL.md: {expression}: {value} there, {found} in SQLite")

counts = ", ".join(f"{count} {kind}" for kind, count in kinds.items())
print(f"tests/expressions.sh: {len(pairs)} values and {len(examples)} examples are SQLite's; of {len(overflows)} overflows SQLite has {counts}; {failed} failed")
sys.exit(1 if failed or len(pairs) < 300 or len(examples) < 20 else 0)
PYTHON
