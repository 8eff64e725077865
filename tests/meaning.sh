#!/usr/bin/env bash
# What statements mean against SQLite itself. The worked statements of crates/hc_sql_examples have their texts, replies and databases
# beside them, and are proved of the definitions. Here their texts are run in SQLite, each on the database that its setup makes: the
# rows, the number of rows changed or the result code have to be the same, and so have the tables, indexes and rows afterwards.
# Where the engine has a rule of its own, OTHERWISE says what SQLite does in its place.
set -u
cd "$(dirname "$0")/.." || exit 1

if ! python3 -c 'import sqlite3, sys; sys.exit(sqlite3.sqlite_version_info < (3, 37) or not hasattr(sqlite3, "SQLITE_ERROR"))' 2>/dev/null; then
    echo 'tests/meaning.sh: skipped, since there is no python3 with a sqlite3 that has STRICT tables and tells result codes'
    exit 0
fi

python3 - crates/hc_sql_examples/specs <<'PYTHON'
import glob
import re
import sqlite3
import sys

# the result codes of refusals; each refusal that is not here is SQLITE_ERROR
CODES = {"NotNull": 1299, "Primary": 1555, "Unique": 2067}

# Where SQLite does otherwise, and what: the rule, and its rows, its number of changed rows or its result code.
OTHERWISE = {
    "an_overflow_in_a_condition_ends_the_reading": ("it goes on in floating point", ("rows", [[1], [2]])),
    "an_overflow_deletes_nothing": ("it goes on in floating point", ("count", 2)),
    "an_overflow_in_set_changes_nothing": ("it goes on in floating point, and an INTEGER column refuses that", ("code", 3091)),
    "an_index_of_two_columns_keeps_the_order_of_rowids": ("it has no order without ORDER BY", ("rows", [[2], [1]])),
    "no_rowid_follows_the_greatest": ("it tries others by chance", ("count", 1)),
    "a_rowid_is_not_set_to_null": ("it is a mismatch of types", ("code", 20)),
    "a_long_name_is_too_big_for_its_cell": ("it has no such limit", ("count", 0)),
}
# no script makes the databases of these
NO_SCRIPT = {"no_tree_number_follows_the_last"}

texts = {path: open(path, encoding="utf-8").read() for path in sorted(glob.glob(sys.argv[1] + "/*.antt"))}
source = "\n".join(texts.values())
string = r'codes "((?:[^"\\]|\\.)*)"'


def plain(text):
    return text.replace('\\"', '"')


def tokens(text):
    return re.findall(r'"(?:[^"\\]|\\.)*"|[()∷]|\[\]|[\w.]+', text)


def term(words, at):
    """A list, or a word with its arguments, from a place on; and the place after it."""
    items = []
    while True:
        parts = []
        while at < len(words) and words[at] not in (")", "∷"):
            if words[at] == "(":
                inner, at = term(words, at + 1)
                parts.append(inner)
            else:
                parts.append(words[at])
            at += 1
        items.append(parts[0] if len(parts) == 1 else tuple(parts))
        if at < len(words) and words[at] == "∷":
            at += 1
            continue
        if items[-1] == "[]":
            return items[:-1], at
        return items[0], at


def read(text):
    return term(tokens(text), 0)[0]


def value(found):
    if found == "Null":
        return None
    kind, given = found
    return int(given) if kind == "int" else plain(given[1][1:-1])


tables = {}
for word, name, indexes in re.findall(r"abbrev pub (\w+) : Table\n\w+ = record \{\n  name = " + string + r";.*?  indexes = ([^;]*);\n\}", source, re.DOTALL):
    tables[word] = (name, [] if indexes == "[]" else indexes.split(" ∷ ")[:-1])
index_names = dict(re.findall(r"abbrev pub (\w+) : Index\n\w+ = record \{ name = " + string, source))
setups = {"Empty": (None, None, [])}
for name, before, text, db in re.findall(r"abbrev pub (\w+) : Setup\n\w+ = After (\w+)\n\s+\(" + string + r"\)\n\s+\(.*?\)\n\s+\(([^\n]*)\)\n", source):
    setups[name] = (before, plain(text), read(db))
worked = re.findall(
    r"abbrev pub (\w+) : Worked\n\w+ = record \{\n  on = (\w+);\n  text = " + string + r";\n.*?  reply = ([^\n]*);\n  after = ([^\n]*);\n", source, re.DOTALL)
if len(worked) < 40 or len(worked) != source.count(" : Worked\n"):
    sys.exit(f"tests/meaning.sh: {len(worked)} worked statements were read")
unknown = (set(OTHERWISE) | NO_SCRIPT) - {w[0] for w in worked}
if unknown:
    sys.exit(f"tests/meaning.sh: no worked statement is called {unknown}")


def script(name):
    before, text, db = setups[name]
    return script(before) + [text] if before else []


def answer(connection, text):
    """The rows of a SELECT, the number of changed rows, or the result code."""
    try:
        cursor = connection.execute(text)
        rows = [list(row) for row in cursor.fetchall()]
        if text.startswith("SELECT"):
            return ("rows", rows)
        return ("count", max(cursor.rowcount, 0))
    except sqlite3.Error as error:
        return ("code", error.sqlite_errorcode)


def expected(reply):
    found = read(reply)
    if found[0] == "shows":
        rows = found[1] if found[1] != "[]" else []
        return ("rows", [[value(v) for v in row] for row in rows])
    if found[0] == "does":
        return ("count", int(found[1]))
    kind = found[1] if isinstance(found[1], str) else found[1][0]
    return ("code", CODES.get(kind.split(".")[1], 1))


def contents(db):
    """The names of tables and indexes, and the rows of each table."""
    if isinstance(db, tuple) and db[0] == "db_of":
        return contents(setups[db[1]][2])
    names, rows = [], {}
    for kind, word, filled in db:
        name, indexes = tables[word]
        names += [name] + [index_names[index] for index in indexes]
        rows[name] = [[value(v) for v in row[2]] for row in ([] if filled == "[]" else filled)]
    return sorted(names), rows


def present(connection):
    names = connection.execute("SELECT type, name FROM sqlite_master").fetchall()
    rows = {name: [list(row) for row in connection.execute(f'SELECT * FROM "{name}" ORDER BY rowid')] for kind, name in names if kind == "table"}
    return sorted(name for kind, name in names), rows


same = other = 0
faults = []
for name, on, text, reply, after in worked:
    if name in NO_SCRIPT:
        continue
    connection = sqlite3.connect(":memory:", isolation_level=None)
    for statement in script(on):
        connection.execute(statement)
    if present(connection) != contents(("db_of", on)):
        faults.append(f"{on}: SQLite has {present(connection)}")
    found = answer(connection, plain(text))
    if name in OTHERWISE:
        other += 1
        if found != OTHERWISE[name][1] or found == expected(reply):
            faults.append(f"{name}: SQLite answers {found}, and OTHERWISE says {OTHERWISE[name][1]}")
        continue
    same += 1
    if found != expected(reply):
        faults.append(f"{name}: SQLite answers {found}, and here is {expected(reply)}")
    elif present(connection) != contents(read(after)):
        faults.append(f"{name}: SQLite has {present(connection)}, and here is {contents(read(after))}")
    connection.close()
for fault in faults:
    print(f"tests/meaning.sh: {fault}")
if faults:
    sys.exit(1)
print(f"tests/meaning.sh: {same} worked statements answer as SQLite does, {other} by rules of the engine's own, {len(NO_SCRIPT)} has no script")
PYTHON
