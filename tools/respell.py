#!/usr/bin/env python3
"""Spells the repository's own definitions and lemmas in snake case: boxFrom -> box_from, pair-taken -> pair_taken.

usage: tools/respell.py [FOLDER]     in a checkout that the toolchain's port.py has turned; FOLDER is another copy of it

A dash stays where it joins the names of two definitions, as in unle-le. A name that would meet another gets `_lem`, or what ASIDE says.
Types and modules, and the names of Rust's, of the libraries and of what the check makes, stay. Code of .antt files, clauses and `ghost use`
lines of .rt files, texts of must-fail edits, and code spans of comments and documents are turned. A second run changes nothing.
"""
import collections, os, re, sys

NAME = r'[^\s(){}\[\].;,@"«»:\\|`]+'
TOKEN = re.compile(r'[^\s(){}\[\].;,@"«»\\`]+')
DECLARED = re.compile(r"^\s*((?:(?:pub|abbrev|unfoldable|where|let|data|record) )*)(" + NAME + r")(?: (?:\{[^{}]*\}|\([^()]*\)))* :(?:\s|$)")
MADE = re.compile(r"^(invariant|decreases|Inv|μ)-|-Inv-loop$")
# Words of the libraries that lemmas are named after.
LENT = set("length take drop map append replicate sets set cond and or not zip sum fold filter nth".split())
# A name whose plain spelling a library has, with what it is called.
ASIDE = {"is-nan": "is_nan_lem"}
# Names that no line of their own declares: constructors in a row, and what an import or a variable is called.
ALSO = dict(
    nextC="next_c", finishC="finish_c", dateTime="date_time", rootAt="root_at", curveOfS="curve_of_s", finishW="finish_w",
    endAdded="added_end", isPair="is_pair", hasColumns="has_columns", eventRecords="event_records", takenWith="taken_with", eS="es_is",
)


def files(root, *endings):
    for folder, dirs, names in os.walk(root):
        dirs[:] = sorted(d for d in dirs if d not in ("out", "target", ".git", "__pycache__"))
        for name in sorted(names):
            if name.endswith(endings):
                yield os.path.join(folder, name)


def read(path):
    with open(path, encoding="utf-8", newline="") as f:
        return f.read()


def write(path, text):
    with open(path, "w", encoding="utf-8", newline="") as f:
        f.write(text)


def declared(crates):
    """Each declared name, with whether it is a definition; and those that stand behind a dot: of fields and constructors."""
    found, members = collections.defaultdict(bool), set()
    for path in files(crates, ".antt"):
        within = None
        for line in read(path).split("\n"):
            indent = len(line) - len(line.lstrip())
            if line.strip() and within is not None and indent <= within:
                within = None
            if re.match(r"\s*(pub )?(record|data) ", line):
                within = indent
                continue
            m = DECLARED.match(line)
            if m and not MADE.search(m[2]):
                found[m[2]] |= "abbrev" in m[1] or "unfoldable" in m[1]
                if within is not None:
                    members.add(m[2])
    return found, members


def snake(word):
    return re.sub(r"(?<=[a-z0-9₀-₉])([A-Z])", lambda m: "_" + m[1].lower(), word)


def spelled(name, definitions):
    """The name in snake case; a dash between two definitions' names stays."""
    if name[:1].isupper():
        return name
    parts = name.split("-")
    out = snake(parts[0])
    for i in range(1, len(parts)):
        left, right = "-".join(parts[:i]), "-".join(parts[i:])
        joins = i == len(parts) - i and len(parts) == 2 and left in definitions and right in definitions
        out += ("-" if joins else "_") + snake(parts[i])
    return out


def table(crates):
    """Two tables, of the names that stand alone and of those behind a dot."""
    names, members = declared(crates)
    definitions = {n for n in names if names[n]} | LENT
    rows, taken = {}, {}
    # A definition has the first choice of a name.
    for name in sorted(names, key=lambda n: (not names[n], "-" in n, n)):
        new = ASIDE.get(name) or spelled(name, definitions)
        if taken.get(new, name) != name:
            new += "_lem"
        assert taken.setdefault(new, name) == name, (name, new, taken[new])
        if new != name:
            rows[name] = new
    return rows | ALSO, {name: rows[name] for name in members if name in rows}


def turned(text, rows):
    """Behind a dot stand fields and constructors, but behind the short name of a module what the module has."""

    def one(m):
        behind = m.start() > 0 and text[m.start() - 1] == "." and not re.search(r"(?<![\w.])[A-Z]\w*\.$", text[: m.start()])
        return rows[behind].get(m[0], m[0])

    return TOKEN.sub(one, text)


def spans(text, rows):
    return re.sub(r"`[^`\n]+`", lambda m: "`" + turned(m[0][1:-1], rows) + "`", text)


def camel(text, rows):
    """A comment's words that no prose has, and its code spans."""
    text = re.sub(r"(?<![\w-])[a-z]\w*[A-Z]\w*(?![\w-])", lambda m: rows[0].get(m[0], m[0]), text)
    return spans(text, rows)


def antt(text, rows):
    out = []
    for line in text.split("\n"):
        m = re.search(r"(?<!\S)--(?!\S)", line)
        code, comment = (line[: m.start()], line[m.start() :]) if m else (line, "")
        out.append(turned(code, rows) + camel(comment, rows))
    return "\n".join(out)


def closing(text, at):
    deep = 0
    for i in range(at, len(text)):
        deep += (text[i] == "{") - (text[i] == "}")
        if not deep:
            return i + 1
    return len(text)


def rattle(text, rows):
    out, at = [], 0
    clause = re.compile(r"(?m)//[^\n]*|ghost use [^;]*;|\b(?:requires|ensures)\*?(?: \w+)? \{|\bghost(?: \w+:)? \{")
    while True:
        m = clause.search(text, at)
        if not m:
            return "".join(out) + text[at:]
        out.append(text[at : m.start()])
        if m[0].startswith("//"):
            at = m.end()
            out.append(camel(m[0], rows))
        elif m[0].startswith("ghost use"):
            at = m.end()
            out.append(turned(m[0], rows))
        else:
            at = closing(text, m.end() - 1)
            out.append(m[0] + turned(text[m.end() : at], rows))


def edit(text, rows):
    kind, out = "", []
    for line in text.split("\n"):
        if line.startswith("file:"):
            kind = line.rsplit(".", 1)[-1].strip()
        m = re.match(r"(old|new): ?", line)
        if m and kind == "antt":
            line = m[0] + turned(line[m.end() :], rows)
        elif m:
            line = m[0] + rattle(line[m.end() :], rows)
        out.append(line)
    return "\n".join(out)


def own(rows, text):
    """The tables without what the file imports from a library."""
    lent = set()
    for m in re.finditer(r"\buse ([^\s;{]+)\.\{([^}]*)\}", text):
        if re.match(r"Rattle\.(std|core|io)\b", m[1]) or not m[1].startswith("Rattle."):
            lent |= {it.strip().split(" as ")[0] for it in m[2].split(",")}
    return tuple({a: b for a, b in table.items() if a not in lent} for table in rows)


def main():
    root = sys.argv[1] if len(sys.argv) > 1 else os.path.join(os.path.dirname(os.path.abspath(__file__)), "..")
    crates = os.path.join(root, "crates")
    rows = table(crates)
    for ending, turn in ((".antt", antt), (".rt", rattle), (".edit", edit)):
        for path in files(crates, ending):
            old = read(path)
            new = turn(old, own(rows, old))
            if new != old:
                write(path, new)
    for path in files(root, ".md"):
        old = read(path)
        new = spans(old, rows)
        if new != old:
            write(path, new)


if __name__ == "__main__":
    main()
