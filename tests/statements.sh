#!/usr/bin/env bash
# Statements against SQLite's own parser. The tests of hc_parse (in hc_syntax_tests) have texts with the statement or the fault that each is.
# SQLite has to accept what is accepted there, but for a stated list, and to refuse what is refused, but for
# another. Names that SQLite does not know are no matter here: its parser comes before them. Expressions and their
# canonical texts, in which all grouping is written out, have to be the same program to SQLite.
set -u
cd "$(dirname "$0")/.." || exit 1

if ! python3 -c 'import sqlite3' 2>/dev/null; then
    echo 'tests/statements.sh: skipped, since there is no python3 with sqlite3'
    exit 0
fi

python3 - crates/hc_syntax_tests/src/parse/{expressions,statements,faults}.rt <<'PYTHON'
import ast
import re
import sqlite3
import sys

text = ""
for path in sys.argv[1:]:
    with open(path, encoding="utf-8") as file:
        text += file.read()
literal = r'"((?:[^"\\]|\\.)*)"'
pairs = []
groups = []
for name in ["OPERANDS", "TESTS", "PAIRS", "QUERIES", "CHANGES", "SCHEMAS", "TRANSACTIONS", "REFUSED"]:
    table = text.partition(f"const {name}: ")[2].partition("\n];")[0]
    found = re.findall(r"\(\s*" + literal + r",\s*" + literal + r",?\s*\)", table)
    wanted = re.search(r"; (\d+)\]", table)
    if not wanted or len(found) != int(wanted.group(1)):
        sys.exit(f"tests/statements.sh: found {len(found)} pairs of {name} in the tests")
    tuples = [tuple(ast.literal_eval(f'"{part}"') for part in pair) for pair in found]
    pairs += tuples
    if name in ["OPERANDS", "TESTS", "PAIRS"]:
        groups += tuples

# Accepted here and not by SQLite: BEGIN CONCURRENT is of another branch of it.
ONLY_OURS = {"begin concurrent", "begin concurrent transaction"}
# Refused here and accepted by SQLite's parser.
ONLY_SQLITE = {
    # one statement is read, so none ends with `;`
    "SELECT 1;",
    # lists and calls without an element, names of three parts
    "SELECT 1 IN ()", "SELECT f()", "SELECT a.b.c",
    # NOT within an operand of a tighter operator
    "SELECT 1 BETWEEN NOT 2 AND 3", "SELECT a = NOT b", "SELECT 1 + NOT 2",
    # numbers that SQLite reads as reals
    "SELECT 9223372036854775808", "SELECT -(9223372036854775808)", "SELECT 1 - 9223372036854775808",
    "SELECT + 9223372036854775808", "SELECT a LIMIT 9223372036854775808",
    # expressions after LIMIT
    "SELECT a LIMIT +1", "SELECT a LIMIT 1 + 1",
    # what SQLite's parser leaves to a later step: `*` without FROM, HAVING without GROUP BY, columns without a type
    "SELECT *", "SELECT *, 1 WHERE 1", "SELECT t.*", "SELECT 1 HAVING 1", "CREATE TABLE t (a) STRICT",
    # ON after the first table and after a comma, and more than 8 tables
    "SELECT 1 FROM t ON 1", "SELECT 1 FROM t, u ON 1",
    "SELECT 1 FROM a,b,c,d,e,f,g,h,i", "SELECT 1 FROM a,b,c,d,e,f,g,h JOIN i",
    # a text as a name, UNION, CAST, `==` in SET, and tables that are not STRICT
    "SELECT 1 AS 'a'", "SELECT 1 UNION SELECT 2", "SELECT CAST(1 AS TEXT)", "UPDATE t SET a == 1", "CREATE TABLE t (a INTEGER)",
}


def is_accepted(statement):
    """Whether SQLite's parser accepts a text; what it misses afterwards is no matter."""
    connection = sqlite3.connect(":memory:", isolation_level=None)
    try:
        connection.execute("EXPLAIN " + statement)
    except sqlite3.Error as error:
        message = str(error)
        return not re.search(r"syntax error|incomplete input|unrecognized token|parse", message), message
    finally:
        connection.close()
    return True, ""


def program(statement):
    """What SQLite makes of an expression over a table, which tells how it groups operators, or None."""
    connection = sqlite3.connect(":memory:", isolation_level=None)
    try:
        connection.execute("CREATE TABLE t(a, b, c, d, e)")
        return connection.execute(f"EXPLAIN {statement} FROM t").fetchall()
    except sqlite3.Error:
        return None
    finally:
        connection.close()


failed = 0
counts = {"accepted by both": 0, "refused by both": 0, "ours alone": 0, "SQLite's alone": 0}
for statement, answer in pairs:
    ours = not re.match(r"(syntax|deep) \d+$", answer)
    theirs, message = is_accepted(statement)
    if ours == theirs:
        counts["accepted by both" if ours else "refused by both"] += 1
        stated = statement in ONLY_OURS or statement in ONLY_SQLITE
    elif ours:
        counts["ours alone"] += 1
        stated = statement not in ONLY_OURS
    else:
        counts["SQLite's alone"] += 1
        stated = statement not in ONLY_SQLITE
    if stated:
        failed += 1
        print(f"tests/statements.sh: {statement!r}: here {answer!r}, SQLite {'accepts' if theirs else message}")
    if ours and not is_accepted(answer)[0] and statement not in ONLY_OURS:
        failed += 1
        print(f"tests/statements.sh: SQLite refuses the canonical text {answer!r}")
grouped = 0
for statement, answer in groups:
    theirs = program(statement)
    grouped += theirs is not None
    if theirs is not None and theirs != program(answer):
        failed += 1
        print(f"tests/statements.sh: SQLite groups {statement!r} and {answer!r} differently")
if grouped < 80:
    failed += 1
    print(f"tests/statements.sh: only {grouped} of {len(groups)} expressions run in SQLite")
print("tests/statements.sh: " + ", ".join(f"{count} {name}" for name, count in counts.items()) + f", {grouped} grouped the same, {failed} failed")
sys.exit(1 if failed else 0)
PYTHON
