#!/usr/bin/env bash
# Records against SQLite itself. The tests of hc_record, in crates/hc_text_tests, have integers and lists of values with the records
# that `encode` writes and `decode` reads. SQLite writes the same lists into a table, and the bytes of
# the record in its database file have to be the same.
set -u
cd "$(dirname "$0")/.." || exit 1

if ! python3 -c 'import sqlite3' 2>/dev/null; then
    echo 'tests/records.sh: skipped, since there is no python3 with sqlite3'
    exit 0
fi
work=$(mktemp -d) || exit 1
trap 'rm -rf "$work"' EXIT

python3 - "$work/database" crates/hc_text_tests/src/record.rt <<'PYTHON'
import ast
import os
import re
import sqlite3
import sys

database, tests = sys.argv[1:]
with open(tests, encoding="utf-8") as file:
    text = file.read()
bytes_of = r'b"((?:[^"\\]|\\.)*)"'
table = text.partition("const INTEGERS")[2].partition("];")[0]
integers = re.findall(r"\(\s*(-?\d+),\s*" + bytes_of + r",?\s*\)", table)
lists = text.partition("// ROWS")[2].partition("#[test]")[0].partition("\n")[2]
rows = re.findall(r"// ([^\n]+)\n(?:(?!//).)*?agree\(\s*alloc,\s*&[^\"]*?,\s*" + bytes_of, lists, re.DOTALL)
if len(integers) != 30 or len(rows) != 6:
    sys.exit(f"tests/records.sh: found {len(integers)} integers and {len(rows)} lists in {tests}")


def varint(data, at):
    """A number and the place after it, as section 1.6 of fileformat2.html has it."""
    number = 0
    for k in range(9):
        byte = data[at + k]
        if k == 8:
            return number * 256 + byte, at + 9
        number = number * 128 + byte % 128
        if byte < 128:
            return number, at + k + 1


def record_by_sqlite(values):
    """The record of the one row of the one table, whose root is page 2 (sections 1.3 and 1.6)."""
    if os.path.exists(database):
        os.remove(database)
    connection = sqlite3.connect(database)
    connection.execute("PRAGMA page_size = 4096")
    columns = connection.execute(f"SELECT {values}").fetchone()
    names = ", ".join(f"c{k}" for k in range(len(columns)))
    connection.execute(f"CREATE TABLE t({names})")
    connection.execute(f"INSERT INTO t VALUES ({values})")
    connection.commit()
    connection.close()
    with open(database, "rb") as file:
        page = file.read()[4096:8192]
    assert page[0] == 13 and int.from_bytes(page[3:5], "big") == 1, "the page is no leaf with one cell"
    length, at = varint(page, int.from_bytes(page[8:10], "big"))
    _, at = varint(page, at)
    return page[at : at + length]


failed = 0
for values, record in integers + rows:
    wanted = record_by_sqlite(values)
    found = ast.literal_eval(f'b"{record}"')
    if wanted != found:
        failed += 1
        print(f"tests/records.sh: {values}: SQLite has {wanted.hex()}, the tests {found.hex()}", file=sys.stderr)
if failed:
    sys.exit(f"tests/records.sh: {failed} records differ")
print(f"tests/records.sh: {len(integers) + len(rows)} records are those of SQLite {sqlite3.sqlite_version}")
PYTHON
