#!/usr/bin/env python3
"""Lists the places in src/ that docs/DESIGN-PASS.md counts: run at the top of the repository, with the number of a point or with none for all.

    python3 tools/places.py [POINT] [--count]

It goes by patterns, so it finds candidates: which of them are places, and why one stays as it is, says the page.
"""
import glob
import re
import sys


def sources():
    for path in sorted(glob.glob("crates/*/src/**/*.rt", recursive=True)):
        with open(path, encoding="utf-8") as file:
            yield path, file.read()


def found(pattern, part=None):
    """The lines on which a pattern begins, as PATH:LINE: TEXT."""
    lines = []
    for path, text in sources():
        for match in re.finditer(pattern, text, re.M):
            line = text.count("\n", 0, match.start()) + 1
            what = match.group(part) if part else match.group(0)
            lines.append(f"{path}:{line}: {' '.join(what.split())}")
    return lines


def functions():
    """Each function's path, line, name and parameters."""
    for path, text in sources():
        for match in re.finditer(r"^ *(?:pub )?fn (\w+)(?:<[^>]*>)?\(([^)]*)\)", text, re.M):
            parameters = [p.strip() for p in match.group(2).split(",") if ":" in p or "self" in p]
            yield path, text.count("\n", 0, match.start()) + 1, match.group(1), parameters


def repeated_names():
    at = {}
    for path, text in sources():
        for match in re.finditer(r"^(?:pub )?(fn|struct|enum) (\w+)", text, re.M):
            at.setdefault(" ".join(match.groups()), []).append(path)
    return [f"{name}: {', '.join(paths)}" for name, paths in sorted(at.items()) if len(paths) > 1 and name != "fn main"]


def many_parameters():
    return [f"{path}:{line}: {name}, {len(p)} parameters" for path, line, name, p in functions() if len(p) >= 6]


def place_beside():
    return [
        f"{path}:{line}: {name}"
        for path, line, name, p in functions()
        if any(re.match(r"(out|list): &mut \[", x) for x in p) and any(re.match(r"at: usize", x) for x in p)
    ]


POINTS = {
    "1 enums": lambda: found(r"^(?:pub )?enum (\w+)"),
    "1 flags and numbers beside a value": lambda: found(r"^ +(?:pub )?(?:answer|number|good|more|ended|sets|replies): (?:u8|bool|Answer),"),
    "2 names that stand twice": repeated_names,
    "2 min, max and the like by hand": lambda: found(r"^ +if (\w+) <=? (\w+) \{\s*(?:\1|\2|\d+)\s*\} else \{\s*(?:\1|\2|\d+)\s*\}|if \d+ - \w+ < \w+ \{"),
    "3 loops over an index": lambda: found(r"^ *(?:for \w+ in [^&\n]*\.\.[^\n]*\{|while [^\n]*\{|[^\n/]*\bloop \{)"),
    "4 answers by hand": lambda: found(r"return (?:true|false);"),
    "4 zero values by hand": lambda: found(r"^(?:pub )?fn (?:no_|zeros|begin|malformed|not_|none)\w*\(|= (?:Tally|Words|Marks) \{\s*\w+: (?:0|false),"),
    "5 six parameters or more": many_parameters,
    "5 the fact that so many bytes are there": lambda: found(r"Counts result"),
    "6 a place beside a buffer": place_beside,
    "6 two arrays side by side": lambda: found(r"low: \[u8; \w+\],\s*(?:pub )?high: \[u8; \w+\]"),
    "7 a flag that says which step to run": lambda: found(r"\b(?:stops|heals|resets|purges|knows|leaves): bool"),
}


def main():
    wanted = [a for a in sys.argv[1:] if not a.startswith("--")]
    for name, places in POINTS.items():
        if wanted and name.split()[0] not in wanted:
            continue
        lines = places()
        print(f"{name}: {len(lines)}")
        if "--count" not in sys.argv:
            for line in lines:
                print(f"    {line}")


if __name__ == "__main__":
    main()
