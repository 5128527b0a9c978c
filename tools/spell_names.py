#!/usr/bin/env python3
"""Spells the repository's own definitions and lemmas in snake case: usage: tools/spell_names.py, at the top, once, after the toolchain's port.py.

A name that a file of specs/ or proofs/ declares (a definition, a lemma, a field of a record) is a word: `isPlan` becomes `is_plan`, `plan-bounds`
becomes `plan_bounds`. Types, facts, constructors and modules keep their capitals. Names from libraries stay in the files that import them, and so do
the names of goals and steps that the toolchain makes. Where two names would fall together, the lemma's gets `_lem`. Must-fail edits follow, and in
README.md, docs/ and comments what stands between backticks or in a file's list of its contents. What was renamed goes to standard output.
"""

import collections
import os
import re
import sys

NAME = r"[^\s(){}\[\].;,@\"«»`]+"
DECLARED = re.compile(r"^( *)(?:(?:abbrev|opaque|unfoldable|pub|instance)\s+)*(?:(record|data|ruleset)\s+)?(" + NAME + r")(?:\s+\{[^{}\n]*\}|\s+\([^()\n]*\))*\s*:(?:\s|$)")
USE = re.compile(r"^\s*(?:pub |ghost )?use\s+([^\s{;]+?)\.?(?:\{([^}]*)\})?\s*;?\s*$", re.M)
TOKEN = re.compile(NAME)
LIBRARY = re.compile(r"Rattle\.(core|std|std_alloc|std_collections|std_heap|std_io|libc|io|os)\b")


def texts(*endings):
    for folder, dirs, files in os.walk("crates"):
        dirs[:] = sorted(d for d in dirs if d not in ("out", "target"))
        for f in sorted(files):
            if f.endswith(endings):
                yield os.path.join(folder, f)


def read(path):
    with open(path, encoding="utf-8") as f:
        return f.read()


def write(path, text):
    with open(path, "w", encoding="utf-8") as f:
        f.write(text)


def is_odd(name):
    """Whether it is a word that is not in snake case."""
    return name[0].islower() and ("-" in name or bool(re.search("[A-Z]", name))) or bool(re.match(r"\d\w*-", name))


def in_snake_case(name):
    words = name if re.search("-[A-Z]", name) else re.sub(r"(?<=[a-z0-9])[A-Z]+", lambda m: "_" + m[0].lower(), name)
    return words.replace("-", "_")


def is_own(path):
    return path.startswith("Rattle.") and not LIBRARY.match(path)


def from_libraries(text):
    """The names that a file takes from libraries."""
    found = set()
    for path, items in USE.findall(text):
        if not is_own(path):
            found.update(w.split(" as ")[-1].strip() for w in (items.split(",") if items else [path.split(".")[-1]]))
    return found


def goals(path, text):
    """The names of goals that an old proof by hand gives to its answers."""
    return set(re.findall(r"\btie\.Need-(" + NAME + r")", text)) if path.endswith("/Proof.antt") else set()


def fields():
    """The fields of records: behind a dot other names are steps that the toolchain names, or stand in a module."""
    found = set()
    for path in texts(".antt"):
        inside = False
        for line in read(path).split("\n"):
            line = re.sub(r"--.*", "", line)
            m = DECLARED.match(line)
            if line.strip() and not line.startswith(" "):
                inside = bool(m and m[2] == "record" or re.match(r"(?:pub )?record\b", line))
            elif inside and m:
                found.add(m[3])
    return found


FIELDS = set()


def declared():
    """Each name that a file declares: where, and whether as a definition."""
    found = collections.defaultdict(set)
    for path in texts(".antt"):
        text = read(path)
        stay = goals(path, text)
        for line in text.split("\n"):
            m = DECLARED.match(re.sub(r"--.*", "", line))
            if m and m[3] not in ("let", "use", "mod", "λ") and m[3] not in stay and is_odd(m[3]):
                found[m[3]].add(path)
    return found


def mapping(names):
    everything = set()
    for path in texts(".antt"):
        for line in read(path).split("\n"):
            m = DECLARED.match(re.sub(r"--.*", "", line))
            if m:
                everything.add(m[3])
    new, lemmas, taken = {}, {}, collections.defaultdict(list)
    for name in sorted(names, key=lambda n: ("-" in n, n)):
        to = in_snake_case(name)
        taken[to].append(name)
        if len(taken[to]) > 1:
            print(f"together: {name} and {', '.join(taken[to][:-1])}")
            to += "_lem"
        elif to in everything and "-" not in name:
            print(f"together: {to} of port.py and {name}")
            lemmas[to] = to + "_lem"
        elif to in everything:
            print(f"together: {name} and {to}")
            to += "_lem"
        new[name] = to
    return new, lemmas


def spell(text, new, stay=frozenset(), odd=lambda token: True):
    def one(m):
        token = m[0]
        tail = ""
        while token and token[-1] in ":'" and token not in new:
            token, tail = token[:-1], token[-1] + tail
        behind = re.search("(" + NAME + r")?\.$", text[: m.start()])
        if behind and token not in FIELDS and not (behind[1] and behind[1][0].isupper()):
            return m[0]
        return new[token] + tail if token in new and token not in stay and odd(token) else m[0]

    return TOKEN.sub(one, text)


def has_capital(token):
    return bool(re.search("[A-Z]", token))


def page(text, new):
    """What stands between backticks."""
    return re.sub(r"`[^`\n]+`", lambda m: spell(m[0], new), text)


def listing(line, new):
    """A line of a file's list of its contents: names, blanks, what they are."""
    m = re.match(r"(\s*(?:--|//)\s+)(" + NAME + r"(?:, " + NAME + r")*)(,?  .*|,)$", line)
    if not m:
        return line
    names = spell(m[2], new)
    rest = m[3]
    more = len(names) - len(m[2])
    while more > 0 and rest.startswith("   "):
        rest, more = rest[1:], more - 1
    if more < 0 and rest.startswith("  "):
        rest = " " * -more + rest
    return m[1] + names + rest


def antt(path, text, new):
    stay = from_libraries(text) | goals(path, text)
    lines = []
    for line in text.split("\n"):
        code, dashes, comment = re.match(r"((?:(?!--).)*)(--)?(.*)$", line).groups()
        if dashes and not code.strip():
            line = listing(page(line, new), new)
            if not re.search(r"\S  ", line.strip()):
                line = spell(line, new, stay, has_capital)
        else:
            line = spell(code, new, stay) + (dashes or "") + spell(page(comment or "", new), new, stay, has_capital)
        lines.append(line)
    return "\n".join(lines)


def source(text, new):
    lines = []
    for line in text.split("\n"):
        if line.lstrip().startswith("//"):
            line = spell(listing(page(line, new), new), new, frozenset(), has_capital)
        elif '"' not in line:
            line = spell(line, new, frozenset(), has_capital)
        lines.append(line)
    return "\n".join(lines)


def main():
    names = declared()
    FIELDS.update(fields())
    new, lemmas = mapping(names)
    for path in texts(".antt"):
        text = read(path)
        tokens = set(TOKEN.findall(re.sub(r"--.*", "", text)))
        stay = from_libraries(text) | goals(path, text)
        for token in sorted(tokens & set(new) - stay):
            if new[token] in tokens:
                print(f"look: {path}: {token} meets {new[token]}")
        named = {m[3] for m in map(DECLARED.match, text.split("\n")) if m}
        named.update(w.strip() for _, items in USE.findall(text) for w in items.split(","))
        write(path, antt(path, text, {**new, **{k: v for k, v in lemmas.items() if k in named}}))
    for path in texts(".rt"):
        write(path, source(read(path), new))
    for path in texts(".edit"):
        text = read(path)
        write(path, source(text, new) if "\nfile: src/" in text else "\n".join(spell(l, new) for l in text.split("\n")))
    pages = ["README.md"] + [os.path.join("docs", f) for f in sorted(os.listdir("docs")) if f.endswith(".md") and not f.startswith("PORT")]
    for path in pages:
        write(path, page(read(path), new))
    for name in sorted(new):
        print(f"{name} → {new[name]}")


if __name__ == "__main__":
    sys.exit(main())
