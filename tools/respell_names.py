#!/usr/bin/env python3
"""Spells the repository's own definitions and lemmas as Rattle does: words in snake case, types in camel case.

usage: python3 tools/respell_names.py        at the top of the repository, once, after port.py

Turned are the names that files of specs/ and proofs/ declare, wherever a text of crates/ or a code span
of README.md and docs/ has them. A file that imports such a name from the library keeps it there. The
names that Rattle makes (behind `goal`), Rust's own, strings and comments stay. Where two names would
fall together, EXCEPTIONS says what one of them becomes.
"""

import os
import re

NAME = r'[^\s(){}.;,@"«»]+'
DECLARED = re.compile(r"(?m)^ *(?:(?:pub|abbrev|unfoldable|record|data|let) +)*(" + NAME + r")(?: +[({][^\n]*?[)}])* :(?= )([^\n]*)")
IMPORT = re.compile(r"\buse ([^\s;{]+)\.\{([^}]*)\}")
COMMENT = {".antt": "--", ".rt": "//"}

# Names that would meet another one of their files, or a field of the same name.
EXCEPTIONS = {
    "Reads-back": "ReadsBackWith",
    "all-bytes": "all_bytes_lem",
    "entries-bytes": "entries_bytes_lem",
    "is-next": "is_next_lem",
    "outline-of": "outline_of_lem",
    "places-bytes": "places_bytes_lem",
    "put-at": "put_at_lem",
    "same-sort": "same_sort_lem",
    "shape-of": "shape_of_lem",
    "status-bytes": "status_bytes_lem",
    "term-bytes": "term_bytes_lem",
    "terms-bytes": "terms_bytes_lem",
    "type-at": "type_at_lem",
    "typing-bytes": "typing_bytes_lem",
    "width-by": "width_by_lem",
    "width-in": "width_in_lem",
}
# The same for names that mean this only where they come from a crate.
OF_CRATE = {"forms": {"typeAt": "type_offset", "entriesAt": "entries_offset"}}


def texts():
    for folder, dirs, files in os.walk("crates"):
        dirs[:] = sorted(d for d in dirs if d != "out")
        for f in sorted(files):
            if f.endswith((".antt", ".rt")):
                yield os.path.join(folder, f)


def read(path):
    with open(path, encoding="utf-8") as f:
        return f.read()


def spelled(name):
    if name in EXCEPTIONS:
        return EXCEPTIONS[name]
    if name[0].isupper():
        return "".join(w[0].upper() + w[1:] for w in name.split("-")) if "-" in name else name
    return re.sub(r"(?<=[a-z0-9])[A-Z]", lambda m: "_" + m[0].lower(), name).replace("-", "_")


def table():
    """Each name that is declared and changes, with its new spelling."""
    found = {}
    for path in texts():
        if not path.endswith(".antt"):
            continue
        for m in DECLARED.finditer(read(path)):
            if re.match(r" *(goal|given)\.", m[2]) or not re.match("[A-Za-z]", m[1]):
                continue
            if spelled(m[1]) != m[1]:
                found[m[1]] = spelled(m[1])
    return found


def of_library(text):
    names = set()
    for m in IMPORT.finditer(text):
        if re.match(r"Rattle\.(std|core)\.", m[1]):
            names |= {it.strip().split(" as ")[-1] for it in m[2].split(",")}
    return names


def of_crate(path, text, crate):
    names = set()
    for m in IMPORT.finditer(text):
        if m[1].startswith(f"Rattle.{crate}."):
            names |= {it.strip() for it in m[2].split(",")}
    if path.startswith(f"crates/{crate}/"):
        names |= {m[1] for m in DECLARED.finditer(text)}
    return names


def turned(code, names, behind_dot):
    def word(m):
        if m[1] == "." and not behind_dot(m[2]):
            return m[0]
        return m[1] + names.get(m[2], m[2])

    return re.sub(r'((?:(?<![^\s(){};,@«»])\.)|\.|)(?<![^\s(){}.;,@"«»])(' + NAME + ")", word, code)


def turn(path, names, fields):
    text = read(path)
    here = {k: v for k, v in names.items() if k not in of_library(text)}
    for crate, more in OF_CRATE.items():
        mine = of_crate(path, text, crate)
        here |= {k: v for k, v in more.items() if k in mine}
    mark = COMMENT[os.path.splitext(path)[1]]
    lines = []
    for line in text.split("\n"):
        parts = re.split(r'("(?:[^"\\]|\\.)*"|(?<![^\s(){}])' + mark + r".*$)", line)
        parts[::2] = [turned(p, here, lambda n: n in fields) for p in parts[::2]]
        lines.append("".join(parts))
    new = "\n".join(lines)
    if new != text:
        with open(path, "w", encoding="utf-8") as f:
            f.write(new)
        return 1
    return 0


def turn_page(path, names):
    text = read(path)
    new = re.sub(r"`[^`\n]+`", lambda m: turned(m[0][1:-1], names, lambda n: True).join("``"), text)
    if new != text:
        with open(path, "w", encoding="utf-8") as f:
            f.write(new)


def main():
    names = table()
    # behind a dot stands a field, a constructor or a definition of ours, or a name that Rattle makes
    made = set()
    for path in texts():
        made |= set(re.findall(r"goal\.(" + NAME + ")", read(path)))
    fields = set(names) - made
    for n in sorted(set(names) & made):
        print("made by Rattle too, so it stays behind a dot:", n)
    changed = sum(turn(path, names, fields) for path in texts())
    pages = ["README.md"] + [os.path.join("docs", f) for f in sorted(os.listdir("docs")) if f.endswith(".md")]
    for page in pages:
        turn_page(page, names)
    print(f"{len(names)} names, {changed} files")


main()
