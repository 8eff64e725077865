#!/usr/bin/env bash
# The documents against what they speak of: README.md, docs/ and the README of each crate. Each name in backticks
# is a file, a folder, a crate, or a name that the sources declare; what else may be in backticks is listed below.
# In docs/PROOFS.md a path of the last column is in proofs/ of the crate of its table. docs/crates.svg draws the
# crates of crates.txt. Each command with an output prints what is shown, where the program is built. README.md is
# at most 6,000 bytes.
set -u
cd "$(dirname "$0")/.." || exit 1

size=$(wc -c <README.md)
if [ "$size" -gt 6000 ]; then
    echo "tests/documents.sh: README.md has $size bytes, and may have 6,000"
    exit 1
fi
if ! python3 -c 'import sys; sys.exit(sys.version_info < (3, 7))' 2>/dev/null; then
    echo "tests/documents.sh: README.md has $size bytes; the rest is skipped, since there is no python3 from 3.7 on"
    exit 0
fi

# Whether ./hctree would start the program without building it.
built=crates/hctree/out/launcher.built
is_built=no
if [ -x crates/hctree/out/hctree ] && [ -f "$built" ] &&
    [ -z "$(find crates.txt crates/*/src crates/*/specs crates/*/proofs -newer "$built" -print 2>/dev/null)" ]; then
    is_built=yes
fi

python3 - "$is_built" <<'PYTHON'
import glob
import os
import re
import shutil
import subprocess
import sys

# ---- What may be in backticks without being declared in the sources.

# the first words of a command; `rt` takes one of RT, the others an existing file or nothing
COMMANDS = {"rt", "bash", "./hctree", "hctree", ".ci/run", "grep"}
RT = set("ci check run test try fmt tidy plant must-fail version doc lemma verdict all".split())
# options of the program and of rt
OPTIONS = {"--help", "-h", "--version", "-V", "--mode", "--only", "--test", "--start"}
# SQL: keywords that no token of ours is, and functions and names of examples
SQL = set("LEFT NATURAL OUTER UNION CAST ASC DESC OFFSET BINARY INNER CROSS COUNT t u v x id a b r f".split())
# the first words of a line of the output
LINES = {"conn", "row", "ok", "error", "commit", "snapshot", "rolled", "no"}
# Rust and its library, contracts, and the letters that are put for numbers and names
WORDS = set(
    "u8 u32 u64 i64 usize bool Vec Option Result Copy Clone Display Error Debug PartialEq Eq true false alloc unsafe"
    " ensures requires ghost abbrev pub impl file old new proves NAME FUNCTION PATH WORD KIND N eq fmt"
    " to_be_bytes from_utf8_unchecked size_of SQLITE_CONSTRAINT_PRIMARYKEY".split()
)
PHRASES = {"BAD EDIT", "NOT REFUSED", "pub mod laws;", "slice_cmp nat_cmp"}
# names that are to come, besides the crates of the table in docs/ARCHITECTURE.md
TO_COME = set("Desk read_part reserve put propose check_part decide end".split())
# what rt and the launcher make
MADE = {"out/", "crates/NAME/out/", "crates/hctree/out/hctree", "crates/hctree/out/launcher.log"}
# commands whose output is not compared
NOT_RUN = (".ci/run", "bench/")

# ---- What there is.

EXTENSIONS = (".rt", ".antt", ".md", ".sh", ".sql", ".out", ".edit", ".txt")


def text_of(file):
    with open(file, encoding="utf-8") as opened:
        return opened.read()


crates = sorted(os.path.basename(it) for it in glob.glob("crates/*") if os.path.isdir(it))
listed = re.sub(r"#.*", "", text_of("crates.txt"))
libraries = set(re.findall(r"[\w]+", listed))
sources = {}
proofs = glob.glob("crates/*/proofs/**/*.antt", recursive=True)
specs = glob.glob("crates/*/specs/**/*.antt", recursive=True)
for file in [*glob.glob("crates/*/src/**/*.rt", recursive=True), *specs, *proofs]:
    sources[file] = re.sub(r"(?m)^\s*(//|--).*$|\s(//|--)\s.*$", "", text_of(file))

RUST = [
    r"\b(?:fn|struct|enum|trait|type|const|static|mod|union|ghost)\s+(\w+)",
    r"\b(?:ensures|requires|invariant|hides)\s+(\w+)\s*\{",
    r"(?m)^\s*(?:pub\s+(?:ghost\s+)?)?(\w+)\s*:",
    r"(?m)^\s+([A-Z]\w*)\s*(?:,|\(|\{|=|$)",
    r"(?m)^\s*(?:pub\s+)?use\s+([^;]*);",
    r"\bghost use\s+([^;]*);",
    r"(\w+)!\(",
]
ANTT = [
    r"(?m)^\s*(?:abbrev|data|record|opaque)?\s*(?:pub\s+)*([^\s:(]+)[^:\n]*:",
    r"(?m)^\s*(?:pub\s+)*(?:abbrev|data|record)\s+(?:pub\s+)*(\S+)",
    r"(?m)^use\s+(.*)$",
]


def declared_in(files):
    names = set()
    for file in files:
        for pattern in RUST if file.endswith(".rt") else ANTT:
            for found in re.findall(pattern, sources[file]):
                names.update(re.findall(r"\w+", found))
    return names


declared = {it: declared_in(file for file in sources if file.startswith(f"crates/{it}/")) for it in crates}
declared_anywhere = set().union(*declared.values())
# A module is the name of a file.
declared_anywhere |= {os.path.splitext(os.path.basename(it))[0] for it in sources}
keywords = set(re.findall(r'b?"([A-Z]+)"', "".join(it for file, it in sources.items() if "keyword" in file)))
keywords |= {it.upper() for it in re.findall(r'b?"([a-z]+)"', "".join(it for file, it in sources.items() if "keyword" in file))}
all_code = "".join(it for file, it in sources.items() if file.endswith(".rt"))

architecture = text_of("docs/ARCHITECTURE.md")
table_to_come = architecture.partition("## The crates to come")[2].partition("\n## ")[0]
crates_to_come = set(re.findall(r"`(hc_\w+)`", "".join(re.findall(r"(?m)^\|([^|]*)\|", table_to_come))))

failed = 0
counts = {"names": 0, "commands": 0}


def fail(file, line, what):
    global failed
    failed += 1
    print(f"tests/documents.sh: {file}:{line}: {what}")


# ---- Names.


def exists(path, roots):
    pattern = re.sub(r"\b(NAME|FILE|FUNCTION)\b", "*", path.rstrip("/"))
    deep = [] if "/" in pattern else [f"{it}/**" for it in roots if it.startswith("crates/")]
    return any(glob.glob(f"{root}/{pattern}", recursive=True) for root in [*roots, *deep])


def roots_for(crate, beside):
    """The folders that a path may be in: those of the README's crate and of crates named beside it, or of any crate."""
    own = {crate, *beside} & set(crates) if crate else crates
    inside = [f"crates/{it}{part}" for it in own for part in ("", "/src", "/specs", "/proofs", "/must-fail")]
    return [".", "crates", *inside]


def is_name(name, crate):
    return (
        name in declared_anywhere
        or name in libraries
        or name in crates_to_come
        or name in TO_COME
        or name in WORDS
        or name in SQL
        or name in keywords
        or name.upper() in keywords | SQL
        or name in LINES
        or any(glob.glob(f"crates/{it}/{name}") for it in ([crate] if crate else crates))
        or os.path.exists(name)
    )


def is_path_of_names(parts):
    """Whether `Type::method`, `crate::item` or a longer one is declared: each part in one crate, or a method beside its type."""
    if parts[0] == "hc_x":
        return True
    if parts[0] in crates:
        return all(it in declared[parts[0]] | {"laws"} for it in parts[1:])
    return any(all(it in names for it in parts) for names in declared.values())


def is_good(span, crate, beside):
    if span in PHRASES or span in MADE or span in OPTIONS:
        return True
    first = span.split(" ")[0]
    if first in COMMANDS:
        words = span.split(" ")[1:]
        if first == "rt":
            return not words or words[0] in RT
        if first == "bash":
            return bool(words) and os.path.exists(words[0])
        return first in ("hctree", "grep") or os.path.exists(first)
    if first.partition("=")[0] in OPTIONS:
        return True
    if re.fullmatch(r"[\w.+-]+(/[\w.+-]+)*/?", span) and ("/" in span or span.endswith(EXTENSIONS)):
        return exists(span, roots_for(crate, beside)) or span in EXTENSIONS
    if re.fullmatch(r"\w+(::\w+)+", span):
        return is_path_of_names(span.split("::"))
    if re.fullmatch(r"[A-Za-z_]\w*", span):
        return is_name(span, crate)
    if re.fullmatch(r"[A-Za-z_]\w*:", span):
        return span[:-1] in WORDS
    call = re.fullmatch(r"((?:\w+::)*[a-zA-Z_]\w*) ?[({].*[)}]", span)
    if call and call[1] not in keywords | SQL:
        return is_path_of_names(call[1].split("::")) if "::" in call[1] else is_name(call[1], crate)
    # text of SQL, of the output, or signs and literals alone
    if first.upper().rstrip("(").split("(")[0] in keywords | {it.upper() for it in SQL} | {"X"} or first in LINES:
        return True
    if not re.search(r"[A-Za-z]", re.sub(r"'[^']*'|\bX(?=')|\b[0-9A-F]{2}\b", "", span)):
        return True
    # an expression of a contract: each word of it is declared
    words = re.findall(r"[A-Za-z_]\w+", span)
    return bool(words) and all(is_name(it, crate) or it in ("result", "self", "conns", "event") for it in words)


documents = ["README.md", *sorted(glob.glob("docs/*.md")), *sorted(glob.glob("crates/*/README.md"))]
for file in documents:
    text = text_of(file)
    crate = file.split("/")[1] if file.startswith("crates/") else None
    # the same text with what is in fences left blank, so that lines keep their numbers
    fences = [(it.start(), it[2], it[1]) for it in re.finditer(r"(?ms)^```(\w*)\n(.*?)^```\s*$", text)]
    prose = re.sub(r"(?ms)^```.*?^```\s*$", lambda it: re.sub(r"[^\n]", " ", it[0]), text)
    line_of = lambda at: text.count("\n", 0, at) + 1
    heading = None
    for found in re.finditer(r"(?m)^#+ .*$|(?<!`)`([^`]+)`(?!`)", prose):
        if found[0].startswith("#"):
            heading = found[0]
            continue
        span = re.sub(r"\s+", " ", found[1])
        row = prose[prose.rfind("\n", 0, found.start()) + 1 : found.start()]
        paragraph = prose[prose.rfind("\n\n", 0, found.start()) + 1 : prose.find("\n\n", found.end())]
        counts["names"] += 1
        # the examples of docs/SQL.md are SQL; tests/expressions.sh tries those that have a value
        if file == "docs/SQL.md" and not re.fullmatch(r"hc_\w+|\w+/[\w.]+", span):
            continue
        # an edit that went is no file any more
        if file == "docs/TESTING.md" and heading == "## Edits that went" and row.startswith("|") and row.count("|") >= 2:
            continue
        of = re.fullmatch(r"### `(hc_\w+)`", heading or "")
        if file == "docs/PROOFS.md" and of and row.startswith("|") and row.count("|") == 3:
            if not exists(span, [f"crates/{of[1]}/proofs"]):
                fail(file, line_of(found.start()), f"`{span}` is not in crates/{of[1]}/proofs")
        elif file == "docs/PROOFS.md" and of and re.fullmatch(r"\w+", span) and of[1] in crates and span not in declared[of[1]]:
            if not is_name(span, None):
                fail(file, line_of(found.start()), f"`{span}` is not found")
        elif not is_good(span, crate, re.findall(r"\bhc\w+", paragraph)):
            fail(file, line_of(found.start()), f"`{span}` is not found")
    for found in re.finditer(r"\]\(([^)#:]+)\)", prose):
        counts["names"] += 1
        if not os.path.exists(os.path.join(os.path.dirname(file), found[1])):
            fail(file, line_of(found.start()), f"the link to {found[1]} leads nowhere")

    # ---- What is in fences: crates, commands with their outputs, examples, and lines of the program.
    for start, body, _ in fences:
        line = line_of(start)
        for name in set(re.findall(r"\bhc_\w+", body)):
            counts["names"] += 1
            if name not in libraries | crates_to_come and name not in declared_anywhere:
                fail(file, line, f"{name} in the block is no crate")
        before = text[:start].rstrip().rsplit("\n", 1)[-1]
        example = re.search(r"`(examples/[\w.]+)`:$", before)
        if example:
            counts["commands"] += 1
            if body.strip() != text_of(example[1]).strip():
                fail(file, line, f"the block is not {example[1]}")
        for told in re.findall(r"(?m)^hctree: (.*)$", body):
            counts["names"] += 1
            if re.sub(r'^"WORD" ', "", told) not in all_code:
                fail(file, line, f"the program has no line {told[:60]!r}")
        for command, output in re.findall(r"(?m)^\$ (.*)\n((?:(?!\$ ).*\n?)*)", body):
            if command.startswith(NOT_RUN) or not (output.strip() or "| diff " in command):
                continue
            if command.split()[0] == "./hctree" and sys.argv[1] != "yes":
                print(f"tests/documents.sh: {file}:{line}: skipped, since the program is not built: {command}")
                continue
            if command.split()[0] == "rt" and not shutil.which("rt"):
                print(f"tests/documents.sh: {file}:{line}: skipped, since there is no rt: {command}")
                continue
            counts["commands"] += 1
            ran = subprocess.run(["bash", "-c", command], stdin=subprocess.DEVNULL, capture_output=True, timeout=60)
            if ran.stdout.decode(errors="replace") != output:
                fail(file, line, f"`{command}` prints something else")

# ---- An arrow in the last column of docs/PROOFS.md leads to a file that is imported before it.


def imports_of(crate, path):
    found = glob.glob(f"crates/{crate}/proofs/**/{path}", recursive=True)
    files = [it for one in found for it in ([one] if one.endswith(".antt") else glob.glob(f"{one}/*.antt"))]
    return " ".join(re.findall(rf"(?m)^use Rattle\.{crate}\.proofs\.([\w.+]*)", "\n".join(map(text_of, files))))


crate = None
for line, row in enumerate(text_of("docs/PROOFS.md").split("\n"), 1):
    heading = re.fullmatch(r"#+ (?:`(hc_\w+)`)?.*", row)
    crate = heading[1] if heading else crate
    if crate and row.startswith("|"):
        for chain in row.rstrip("| ").rpartition(" | ")[2].split(";"):
            links = [re.findall(r"`([^`]+)`", it) for it in chain.split("→")]
            for before, after in zip(links, links[1:]):
                seen = " ".join(imports_of(crate, it) for it in before).split()
                for path in after:
                    counts["names"] += 1
                    if not any(it.strip(".").endswith(path[:-5].replace("/", ".")) for it in seen):
                        fail("docs/PROOFS.md", line, f"`{path}` is not imported by {' or '.join(before)} of {crate}")

# ---- The drawing has each crate but those of tests and times, and a line only where one uses the other.
drawing = text_of("docs/crates.svg")
uses = {name: set(used.split()) for name, used in re.findall(r"(?m)^(hc\w+)[^:\n]*:(.*)$", listed)}
drawn = set(re.findall(r">(hc\w+)</text>", drawing))
for name in drawn ^ {it for it in uses if not it.endswith(("_tests", "bench"))}:
    fail("docs/crates.svg", 1, f"{name} is drawn and not in crates.txt, or is there and not drawn")
for above, below in re.findall(r"<title>(\w+) uses (\w+)</title>", drawing):
    counts["names"] += 1
    if below not in uses.get(above, ()):
        fail("docs/crates.svg", 1, f"{above} does not use {below}")

print(f"tests/documents.sh: {counts['names']} names and {counts['commands']} commands and examples, {failed} failed")
sys.exit(1 if failed else 0)
PYTHON
