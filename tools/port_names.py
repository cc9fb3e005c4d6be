#!/usr/bin/env python3
"""Spells the repository's own definitions, fields and lemmas in snake case, once, after the kit's port.py.

usage: tools/port_names.py [--check]        at the top of the repository

A name turns that a file of crates/*/specs or of crates/*/proofs (but for proofs of functions) declares: `aB` and `a-b` to
`a_b`. One that begins with a capital, a type, stays. Where the new name is declared already, or two fall together, a name
with a dash keeps it. Files of .antt, .rt, must-fail edits and the code spans of README and docs/ follow; these edits and
spans, which port.py leaves, follow its own turns too.
"""
import collections
import os
import re
import sys

DECLARED = re.compile(r'(?m)^( *)(?:(?:pub|abbrev|unfoldable) )*([^\s(){}.;,@"«»:]+)(?: \{[^{}\n]*\})* :')
WORD = re.compile(r'[^\s(){}.;,@"«»]+')
USE = re.compile(r"\buse ([^\s;{]+)(\{[^;]*?\})?(?: as ([^\s;]+))?", re.M)
SPAN = re.compile(r"`[^`\n]*`")
TEXT = re.compile(r'"(?:[^"\\\n]|\\.)*"')


def files(*ends):
    for folder, dirs, names in os.walk("crates"):
        dirs[:] = sorted(d for d in dirs if d != "out")
        for name in sorted(names):
            if name.endswith(ends):
                yield os.path.join(folder, name)


def read(path):
    with open(path, encoding="utf-8") as f:
        return f.read()


def without_comments(text):
    return re.sub(r"(?m)--.*$", "", text)


def in_snake_case(name):
    parts = re.split(r"(?<![A-Z])(?=[A-Z][a-z]|[A-Z]$)", name)
    words = "_".join(p[:1].lower() + p[1:] for p in parts if p)
    return words.replace("-", "_")


# Lemmas whose names met a definition's when that lost its capitals, by their modules: they get the ending of a lemma.
LEMMAS = {
    "Rattle.base.proofs.Decimal": "all_digits",
    "Rattle.flow.proofs.Order": "of_number",
    "Rattle.report.proofs.Writing": "room_of",
    "Rattle.text.proofs.InputLaws": "char_of",
}


def declared():
    """The names of the repository's own, and which of them are fields."""
    own, all_names, fields = set(), set(), set()
    for path in files(".antt"):
        for indent, name in DECLARED.findall(without_comments(read(path))):
            all_names.add(name)
            if path.endswith(("Proof.antt", "Answers.antt", "Invariants.antt")):
                continue
            if indent:
                fields.add(name)
            own.add(name)
    return own, all_names, fields


def rust_names():
    found = set()
    for path in files(".rt"):
        code = re.sub(r"//.*", "", read(path))
        found |= set(re.findall(r"\b(\w+): ", code)) | set(re.findall(r"\blet (?:mut )?(\w+)", code))
    return found


def table():
    own, all_names, fields = declared()
    taken = all_names | rust_names()
    rows = {}
    targets = collections.Counter()
    # Definitions first, so that a lemma that would meet one keeps its dash.
    for name in sorted(own, key=lambda n: ("-" in n, n)):
        if name[:1].isupper() or not re.search(r"[a-z0-9][A-Z]|[^-]-[^-]", name):
            continue
        new = in_snake_case(name)
        if new in taken or targets[new]:
            if "-" not in name or not re.search(r"[a-z0-9][A-Z]", name):
                print(f"meets another: {name}")
                if "-" in name:
                    continue
            new = "-".join(in_snake_case(part) for part in name.split("-"))
        targets[new] += 1
        rows[name] = new
    return rows, fields, rows | turned_before(all_names, rows)


def turned_before(all_names, rows):
    """Names as they were spelled before port.py, as far as a page or an edit has them."""
    old = {}
    known = all_names | set(rows.values())
    for path in [*files(".edit"), *pages()]:
        text = read(path)
        if path.endswith(".md"):
            text = " ".join(span[1:-1] for span in SPAN.findall(text))
        for name in WORD.findall(text):
            new = in_snake_case(name)
            if name not in rows and name not in known and new != name and not name[:1].isupper() and new in known:
                old[name] = new
    return old


def pages():
    return ["README.md"] + ["docs/" + n for n in sorted(os.listdir("docs")) if n.endswith(".md")]


def imported_from_others(text):
    """Names that a file imports from a library, and the short names of modules."""
    names, modules = set(), set()
    own = re.compile(r"Rattle\.(%s)\." % "|".join(sorted(os.listdir("crates"))))
    for path, items, short in USE.findall(text):
        if short:
            modules.add(short)
        if items and not own.match(path):
            names |= set(WORD.findall(items))
    return names, modules


def turn(text, rows, fields, others, modules):
    out, last = [], 0
    for m in WORD.finditer(text):
        name = m.group()
        if name not in rows or name in others:
            continue
        before = text[m.start() - 1] if m.start() else ""
        if before == "." and "-" in name and name not in fields:
            head = re.search(r"([^\s(){};,]+)\.$", text[: m.start()])
            head = head.group(1).split(".")[0] if head else ""
            if head not in modules and head != "Rattle":
                continue
        out += [text[last : m.start()], rows[name]]
        last = m.end()
    return "".join(out) + text[last:]


def lemmas_renamed(path, text):
    for module, name in LEMMAS.items():
        own = path == "crates/" + "/".join(module.split(".")[1:]) + ".antt"
        for m in USE.finditer(text):
            own = own or m.group(1) == module + "." and name in WORD.findall(m.group(2) or "")
        if own:
            text = re.sub(r'(?<![^\s(){};,"«»])%s(?![^\s(){}.;,"«»])' % name, name + "_lem", text)
    return text


def turn_code(text, comment, rows, fields):
    """Turns code as a whole, and in comments the code spans."""
    others, modules = imported_from_others(text)
    lines = []
    for line in text.split("\n"):
        at = re.search(r"(?<!\S)" + comment, line)
        code, rest = (line[: at.start()], line[at.start() :]) if at else (line, "")
        quiet, pieces, last = TEXT.finditer(code), [], 0
        for q in quiet:
            pieces += [turn(code[last : q.start()], rows, fields, others, modules), q.group()]
            last = q.end()
        code = "".join(pieces) + turn(code[last:], rows, fields, others, modules)
        lines.append(code + SPAN.sub(lambda m: "`" + turn(m.group()[1:-1], rows, fields, set(), modules) + "`", rest))
    return "\n".join(lines)


def main():
    rows, fields, all_rows = table()
    check = "--check" in sys.argv
    changed = 0
    for path in [*files(".antt", ".rt", ".edit"), *pages()]:
        text = read(path)
        if path.endswith(".antt"):
            new = turn_code(lemmas_renamed(path, text), "--", rows, fields)
        elif path.endswith(".rt"):
            new = turn_code(text, "//", rows, fields)
        elif path.endswith(".edit"):
            new = turn_code(text, "//", all_rows, fields)
        else:
            new = SPAN.sub(lambda m: "`" + turn(m.group()[1:-1], all_rows, fields, set(), set()) + "`", text)
        if new != text:
            changed += 1
            if not check:
                with open(path, "w", encoding="utf-8") as f:
                    f.write(new)
    print(f"{len(rows)} names, {changed} files")


if __name__ == "__main__":
    main()
