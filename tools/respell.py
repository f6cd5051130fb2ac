#!/usr/bin/env python3
"""Brings the names of this repository's definitions and lemmas to today's spelling: words in snake case, types and facts in camel case.

usage: python3 tools/respell.py [--list]     at the top of the repository, once, after the kit's port.py; --list changes nothing
       python3 tools/respell.py --inner FILE..     of these files alone the names that only they know
       python3 tools/respell.py --if               only the library's choice by a test in place of the repository's own

Renamed are the names that the .antt files of specs/ and proofs/ declare, wherever those files, the clauses of src/, the must-fail edits and
the pages of docs/ cite them. Goals of a function's proof, and functions, types, fields, strings, inputs and outputs of src/ keep their names.
A lemma that would fall together with a definition gets `_lem` at its end. It also writes what a plain value needs today, `Clone` and `Copy`,
on the structs and enums of src/, and `#![tactic(auto)]` at the head of each crate.
"""

import os
import re
import shutil
import sys

ID = r"[^\s(){}\[\],;.:λ@`\"]+"
TOKEN = re.compile(ID)
STRING = re.compile(r"\"(?:[^\"\\]|\\.)*\"")
# names that a change of case alone would spell badly
BY_HAND = {"getD-from": "get_or_from"}
SKIP = ("--", "use ", "pub use ", "mod ", "pub mod ", "infix", "syntax", "open ", "module ", "unfolding ", "let ", "where")
HEAD = re.compile(r"^(\s*)((?:abbrev|unfoldable|recursive|data|record|ruleset|private|pub)\s+)*(" + ID + r")\s*(.*)$")
WORDS = ("abbrev", "unfoldable", "pub", "data", "record", "in", "elim", "λ", "if", "then", "else", "let", "rw", "module")


def texts(root, ends, top="crates"):
    for folder, dirs, files in os.walk(os.path.join(root, top)):
        dirs[:] = sorted(d for d in dirs if d != "out")
        for f in sorted(files):
            if f.endswith(ends):
                yield os.path.join(folder, f)


def read(p):
    with open(p, encoding="utf-8") as f:
        return f.read()


def write(p, text):
    with open(p, "w", encoding="utf-8") as f:
        f.write(text)


def of_a_function(p):
    return "/proofs/" in p and "/" in p.split("/proofs/")[1]


def declared(p, text):
    """The names that a file declares, each with its kind: 'type', 'goal' or 'word'."""
    out = {}
    lines = text.split("\n")
    for i, l in enumerate(lines):
        s = l.strip()
        m = HEAD.match(l)
        if not s or s.startswith(SKIP) or not m:
            continue
        words = l[: m.start(3)].split()
        name, rest = m.group(3), m.group(4)
        if name in WORDS:
            continue
        if "data" in words or "record" in words:
            out[name] = "type"
            continue
        if "ruleset" in words:
            out[name] = "word"
            continue
        if not re.match(r"^(" + ID + r"\s+)*:(\s|$)", rest):
            continue
        if l[0].isspace() and not words and len(l) - len(l.lstrip()) > 2:
            continue
        names = [name] + rest.split(":", 1)[0].split()
        type_of = rest.split(":", 1)[1]
        kind = "goal" if of_a_function(p) and re.match(r"\s*(tie|goal|given|lts)\w*\.", type_of) else "word"
        for n in names:
            out[n] = kind
    return out


def snake(name):
    return re.sub(r"([a-z0-9'])([A-Z])", lambda m: m.group(1) + "_" + m.group(2).lower(), name.replace("getD", "get_or").replace("-", "_"))


def changed(name):
    if name in BY_HAND:
        return BY_HAND[name]
    if name.startswith("#") or "◌" in name or not re.search(r"[A-Za-z]", name):
        return name
    return name.replace("-", "_") if name[0].isupper() else snake(name)


def table(root):
    """Old name to new, and per file the names that it declares."""
    names, here, plain = {}, {}, set()
    for p in texts(root, ".antt"):
        here[p] = declared(p, read(p))
        for n, k in here[p].items():
            if k == "goal" or n == "_":
                continue
            if changed(n) == n:
                plain.add(n)
            else:
                names[n] = changed(n)
    taken = {new for old, new in names.items() if "-" not in old} | plain
    for old, new in names.items():
        if "-" in old and new in taken:
            names[old] = new + "_lem"
    return names, here, plain


def library():
    """The names of the kit's library, of which a lemma here may have the same."""
    found = set()
    kit = os.path.dirname(os.path.dirname(os.path.realpath(shutil.which("rt"))))
    for top in ("rattle/logic", "rattle/std", "rattle/core", "rattle/std_alloc", "rattle/antt"):
        for p in texts(kit, ".antt", top):
            found.update(TOKEN.findall(read(p)))
    return found


def own_imports(root, text):
    """The names that a file imports from this repository's own crates, a function's generated modules aside."""
    found = set()
    for m in re.finditer(r"use Rattle\.(\w+)\.(specs|proofs)\.([\w.+]+?)\.\{([^}]*)\}", text):
        if os.path.isdir(os.path.join(root, "crates", m.group(1))):
            found.update(w.split()[0] for w in m.group(4).split(",") if w.strip())
    return found


def turn_antt(text, names, shared, mine):
    """Code by tokens; comments only where a name stands behind a module's or in backticks."""
    out = []
    for line in text.split("\n"):
        code, mark, comment = line.partition("--") if re.match(r"\s*--", line) else (line, "", "")
        if not mark:
            m = re.search(r"\s--\s", line)
            code, comment = (line[: m.start()], line[m.start() :]) if m else (line, "")
        code = TOKEN.sub(lambda t: names.get(t.group(0), t.group(0)) if t.group(0) not in shared or t.group(0) in mine else t.group(0), code)
        out.append(code + mark + turn_prose(comment, names))
    return "\n".join(out)


PLAIN = set()


def turn_prose(text, names):
    """Also the names that port.py turned: those whose new spelling a file declares."""

    def new(t):
        n = t.group(0)
        if n not in names:
            it = re.match(r"([A-Za-z0-9'-]*)(.*)$", n, re.S)
            if not it or changed(it.group(1)) == it.group(1) or changed(it.group(1)) not in PLAIN:
                return n
            if "-" in it.group(1) and not text[: t.start()].endswith((".", "`")):
                return n
            return changed(it.group(1)) + it.group(2)
        if "-" not in n or text[: t.start()].endswith((".", "`")):
            return names[n]
        return n

    return TOKEN.sub(new, text)


def turn_source(text, names):
    """Clauses and comments of a source: its own names have no capital inside, so a name that has one is a definition's."""
    out = []
    for line in text.split("\n"):
        m = re.search(r"(^|\s)//", line)
        code, comment = (line[: m.start()], line[m.start() :]) if m else (line, "")
        parts = STRING.split(code)
        strings = STRING.findall(code) + [""]
        # a goal's or a lemma's dash is a minus in code: only names without one are turned there
        parts = [TOKEN.sub(lambda t: names.get(t.group(0), t.group(0)) if "-" not in t.group(0) else t.group(0), p) for p in parts]
        out.append("".join(a + b for a, b in zip(parts, strings)) + turn_prose(comment, names))
    return "\n".join(out)


def tight(text):
    """A projection and a reference's values as today's clauses have them."""
    text = re.sub(r"\(now \((\w+) \.entry\)\)|now \((\w+) \.entry\)", lambda m: (m.group(1) or m.group(2)) + (".old" if (m.group(1) or m.group(2)) in ("t", "trace") else ".now"), text)
    text = re.sub(r"\(now \((\w+) \.exit\)\)|now \((\w+) \.exit\)", lambda m: (m.group(1) or m.group(2)) + ".new", text)
    text = re.sub(r"\((\w+) \.(\w+)\)", r"\1.\2", text)
    return re.sub(r"\b(F|G|gone|site|it|m|s|r|x|w) \.(\w+)", r"\1.\2", text)


def turn_edit(text, names):
    """An edit's texts as the file that they are of; its comments as prose."""
    out, of = [], ""
    for line in text.split("\n"):
        if line.startswith("file: "):
            of = line
            out.append(line)
        elif line.startswith(("old: ", "new: ")):
            turned = turn_source(line[5:], names) if of.endswith(".rt") else turn_antt(line[5:], names, set(), set())
            # what port.py turned in the files, it left in the edits
            turned = TOKEN.sub(lambda t: changed(t.group(0)) if "-" not in t.group(0) and changed(t.group(0)) in PLAIN else t.group(0), turned)
            out.append(line[:5] + tight(turned))
        else:
            out.append(turn_prose(line, names))
    return "\n".join(out)


def inner(text):
    """The names that stand deeper inside a file, as a lemma of a `module _`, and are known in it alone."""
    here = set(TOKEN.findall(text))
    found = {}
    for m in re.finditer(r"(?m)^\s{3,}(?:pub )?([a-z][A-Za-z0-9']*(?:-[A-Za-z0-9']+)+) :", text):
        new = snake(m.group(1))
        found[m.group(1)] = new + "_lem" if new in here else new
    return TOKEN.sub(lambda t: found.get(t.group(0), t.group(0)), text) if found else text


IF = "if◌then◌else◌"
OWN_IF = """module _ {ℓ} {A : Type ℓ} where
  infix 5 if◌then◌else◌
  abbrev pub if◌then◌else◌ : Bool → A → A → A
  if true then a else b = a
  if false then a else b = b

"""


def library_if(text):
    """A choice by a test is the library's: nothing else may stand under its name."""
    found = False

    def off(m):
        nonlocal found
        names = [n.strip() for n in m.group(3).split(",") if n.strip()]
        if IF not in names:
            return m.group(0)
        found = True
        rest = [n for n in names if n != IF]
        return f"{m.group(1)}use Rattle.lists.specs.Lists.{{{', '.join(rest)}}}{m.group(4)}\n" if rest else ""

    if OWN_IF in text:
        text, found = text.replace(OWN_IF, ""), True
    text = re.sub(r"(?m)^((pub |ghost )?)use Rattle\.lists\.specs\.Lists\.\{([^}]*)\}(;?)\n", off, text)
    if not found:
        return text
    prelude = re.search(r"(?m)^((?:ghost )?use Rattle\.std\.specs\.Prelude\.\{)([^}]*)\}", text)
    if prelude:
        names = [n.strip() for n in prelude.group(2).split(",")]
        return text if IF in names else text[: prelude.end() - 1].rstrip(", \n") + f", {IF}" + text[prelude.end() - 1 :]
    first = re.search(r"(?m)^(ghost )?use ", text)
    line = f"{first.group(1) or ''}use Rattle.std.specs.Prelude.{{{IF}}}{';' if first.group(1) else ''}\n"
    return text[: first.start()] + line + text[first.start() :]


def head_of(text):
    """`#![tactic(auto)]` above the first item, below the comment that says what the crate is."""
    if "#![tactic(auto)]" in text:
        return text
    lines = text.split("\n")
    i = 0
    while i < len(lines) and (lines[i].startswith("//") or not lines[i].strip()):
        i += 1
    return "\n".join(lines[:i] + ["#![tactic(auto)]", ""] + lines[i:])


def main(argv):
    root = "."
    if argv[:1] == ["--if"]:
        for p in texts(root, (".antt", ".rt")):
            new = library_if(read(p))
            if new != read(p):
                write(p, new)
        return 0
    if argv[:1] == ["--inner"]:
        for p in argv[1:]:
            write(p, inner(read(p)))
        return 0
    names, here, plain = table(root)
    PLAIN.update(plain)
    if "--list" in argv:
        for n in sorted(names):
            print(n, names[n])
        return 0
    both = library() & set(names)
    for p in texts(root, ".antt"):
        text = read(p)
        mine = set(here[p]) | own_imports(root, text)
        text = turn_antt(text, names, both, mine)
        write(p, library_if(text if of_a_function(p) else inner(text)))
    for p in texts(root, ".rt"):
        text = turn_source(read(p), names)
        text = text.replace("#[derive(Drop)]", "#[derive(Clone, Copy)]")
        if p.endswith(("src/lib.rt", "src/main.rt")):
            text = head_of(text)
        write(p, library_if(text))
    for p in texts(root, ".edit"):
        write(p, turn_edit(read(p), names))
    for p in [*texts(root, ".md", "docs"), os.path.join(root, "README.md")]:
        write(p, turn_prose(read(p), names))
    return 0


if __name__ == "__main__":
    raise SystemExit(main(sys.argv[1:]) or 0)
