#!/usr/bin/env python3
"""Brings the repository's own definitions and lemmas to snake case, once, after the kit's port.py: usage, at the top: python3 tools/respell.py

Each line of tools/respelled.txt is an old name and its new one. Names are replaced as whole words: everywhere in .antt files outside comments,
in the clauses and ghost items of .rt files (strings and comments stay), and between back-quotes in comments and in the pages.
With --list it prints the names that would be made of this tree, and how they clash.
"""
import collections
import os
import re
import sys

WORD = re.compile(r"[A-Za-z_«◌][A-Za-z0-9_'\-»◌]*")
SIGNATURE = re.compile(r"\s*(?:(?:abbrev|opaque|unfoldable|pub|instance)\s+)*(?:(?:record|data)\s+)?([^\s:(){},.=|;]+)\s+:\s")
GENERATED = re.compile(r"^(invariant|decreases|returns|overflow|bounds|loop|ghost)-")
# words that a program prints, which pages name too
PRINTED = {"no-service", "no-places"}
# where snake case alone would fall together with a crate, a field or a parameter
CHOSEN = {
    "shortList": "short_kind_list",
    "fullList": "full_kind_list",
    "foundRows": "rows_found",
    "runWords": "words_of_run",
    "imsiCode": "code_of_imsi",
    "mncLength": "mnc_length_of",
}


def files(*ends):
    for folder, dirs, names in os.walk("crates"):
        dirs[:] = sorted(d for d in dirs if d not in ("out", "target"))
        for f in sorted(names):
            if f.endswith(ends):
                yield os.path.join(folder, f)


def text(p):
    with open(p, encoding="utf-8") as f:
        return f.read()


def listed():
    """The own names that are not in snake case, with the names that they get."""
    names, goals = set(), set()
    for p in files(".antt"):
        t = text(p)
        goals.update(re.findall(r"goal\.([^\s:(){},;]+)", t))
        for line in t.split("\n"):
            m = SIGNATURE.match(line)
            if m and m[1] != "let":
                names.add(m[1])
    found = {}
    for n in sorted(names):
        if n in goals or n[0].isupper() or GENERATED.match(n):
            continue
        m = CHOSEN.get(n) or re.sub(r"([a-z0-9])([A-Z])", lambda m: m[1] + "_" + m[2].lower(), n).replace("-", "_")
        if m != n:
            found[n] = m
    return found


def turn(t, names):
    return WORD.sub(lambda m: names.get(m[0], m[0]), t)


def own_name_of_all(t):
    """port.py imports the old `All` under the name of the library's new one, which `rt ci` refuses: it gets its own name."""
    if "AllByRecursion as All" not in t:
        return t
    t = t.replace("AllByRecursion as All", "AllByRecursion")
    return re.sub(r"(?<![A-Za-z0-9_'\-])All(?![A-Za-z0-9_'\-])", "AllByRecursion", t)


def quoted(t, names):
    return re.sub(r"`[^`\n]*`", lambda m: turn(m[0], names), t)


def turn_antt(t, names):
    out = []
    for line in t.split("\n"):
        at = line.find("--")
        code, note = (line, "") if at < 0 else (line[:at], line[at:])
        out.append(outside_strings(code, names) + quoted(note, names))
    return "\n".join(out)


def outside_strings(t, names):
    return "".join(s if s.startswith('"') else turn(s, names) for s in re.split(r"(\"(?:\\.|[^\"\\])*\")", t))


def turn_rt(t, names):
    parts = re.split(r"(//[^\n]*|\"(?:\\.|[^\"\\])*\")", t)
    return "".join(quoted(s, names) if s.startswith("//") else s if s.startswith('"') else turn(s, names) for s in parts)


def main(argv):
    if argv == ["--list"]:
        for a, b in listed().items():
            print(a, b)
        return 0
    names = dict(line.split() for line in text("tools/respelled.txt" if os.path.exists("tools/respelled.txt") else os.path.join(os.path.dirname(os.path.abspath(__file__)), "respelled.txt")).splitlines())
    pages = ["README.md"] + [os.path.join("docs", f) for f in sorted(os.listdir("docs")) if f.endswith(".md") and not f.startswith("PORT")]
    turned = 0
    for p in [*files(".antt", ".rt", ".edit"), *pages]:
        old = text(p)
        new = own_name_of_all(old) if p.endswith((".antt", ".rt")) else old
        new = turn_antt(new, names) if p.endswith(".antt") else quoted(new, {a: b for a, b in names.items() if a not in PRINTED}) if p.endswith(".md") else turn_rt(new, names)
        if new != old:
            turned += 1
            with open(p, "w", encoding="utf-8") as f:
                f.write(new)
    print(f"respell: {len(names)} names, {turned} files")
    return 0


if __name__ == "__main__":
    raise SystemExit(main(sys.argv[1:]))
