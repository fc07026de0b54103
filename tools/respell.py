#!/usr/bin/env python3
"""Spells the definitions and lemmas of this repository as today's Rattle spells its own: types and facts in upper camel case, all else in
snake case. Run once, at the top, after /opt/rattle/port/port.py; a second run changes nothing.

usage: python3 tools/respell.py [--check]

It renames what the .antt files of crates/ declare (definitions, lemmas, records, their fields, constructors), and each use of it: in a file
that declares it, in one that imports it, and, for fields, everywhere. Names that Rattle makes (goals, steps) and names of the library keep
their dashes. Names of src/ are not touched. It stops, and writes nothing, where two names would fall together.
"""
import collections
import os
import re
import sys

TOKEN = re.compile(r"[^\s(){}\[\].,;`|↦]+")
IMPORT = re.compile(r"use\s+(Rattle\.(\w+)\.(specs|proofs)\.[^\s{;]+?)\.?\{([^}]*)\}", re.S)
ANSWERS = ("Answers.antt", "Invariants.antt", "Choices.antt", "Proof.antt")


def files(top):
    for folder, dirs, names in os.walk(os.path.join(top, "crates")):
        dirs[:] = sorted(d for d in dirs if d != "out")
        for name in sorted(names):
            if name.endswith((".antt", ".rt")):
                yield os.path.join(folder, name)


def module(path):
    parts = path.split(os.sep)
    at = parts.index("crates")
    return "Rattle." + ".".join(parts[at + 1 :])[: -len(".antt")]


def signatures(text):
    """(kind, name) of what a file declares: 'type', 'word', 'field' (also a constructor), or 'local' of a where."""
    lines, inside = text.split("\n"), []
    for i, line in enumerate(lines):
        deep = len(line) - len(line.lstrip(" "))
        if not line.strip() or re.match(r"\s*(use|mod|pub mod|--|infix\w*|unfolding)\b", line):
            continue
        while inside and inside[-1][0] >= deep:
            inside.pop()
        where = inside[-1][1] if inside else "module"
        if m := re.match(r"\s*(?:(?:abbrev|pub|unfoldable)\s+)*(?:record|data)\s+([^\s:({]+)", line):
            inside.append((deep, "record"))
            yield "type", m[1]
        elif re.match(r"\s*module\b", line):
            inside.append((deep, "module"))
        elif m := re.match(r"\s*(?:(?:abbrev|pub|unfoldable)\s+)*([^\s:(){}\[\]=]+(?: [^\s:(){}\[\]=]+)*)\s+:(?:\s+(.*)|$)", line):
            said, k = m[2] or "", i + 1
            while k < len(lines) and len(lines[k]) - len(lines[k].lstrip(" ")) > deep:
                said, k = said + " " + lines[k].strip(), k + 1
            if said.startswith("goal.") or m[1].startswith(("let ", "λ ", "in ")):
                continue
            fact = re.search(r"(^|→ )Type( 0| \{0\})?$", re.sub(r"\s*--.*", "", said).strip())
            for name in m[1].split():
                yield "field" if where == "record" else "local" if where == "local" else "type" if fact else "word", name
        elif line.rstrip().endswith("where"):
            inside.append((deep, "local"))


def camel(name):
    return "".join(p[:1].upper() + p[1:] for p in re.split(r"[-_]", name))


def snake(name):
    return name.replace("getD", "get_or").replace("-", "_")


def spelled(kind, name):
    if "◌" in name or name[:1] in "-_":
        return name
    return camel(name) if kind == "type" or name[:1].isupper() else snake(name)


def declared(top):
    """The new names by module, those of fields, and those that only a file itself sees."""
    words, fields, own = collections.defaultdict(dict), {}, collections.defaultdict(dict)
    for path in files(top):
        if not path.endswith(".antt"):
            continue
        for kind, name in signatures(open(path, encoding="utf-8").read()):
            to = fields if kind == "field" else own[path] if kind == "local" else words[module(path)]
            to[name] = spelled(kind, name)
    return words, fields, own


def in_scope(path, text, words, fields, own):
    """What each name of a file is called from now on."""
    at = {n: m for n, m in fields.items() if n != m and "-" in n}
    if path.endswith(".antt"):
        at.update({n: m for n, m in {**words.get(module(path), {}), **own.get(path, {})}.items() if n != m})
    for m in IMPORT.finditer(text):
        for item in m[4].split(","):
            item = item.strip().split(" as ")
            new = words.get(m[1], {}).get(item[0])
            if new and new != item[0]:
                at[item[0]] = new
            if len(item) == 2 and "-" in item[1]:
                at[item[1]] = snake(item[1])
    return at


def turn(path, text, at):
    if path.endswith(".antt"):
        return TOKEN.sub(lambda m: at.get(m[0], m[0]), text)
    # in a .rt file only `ghost use` lines and clauses have such names
    out = []
    for line in text.split("\n"):
        if re.match(r"\s*(ghost\b|requires\b|ensures\b)", line) or "-" in line and re.search(r"[A-Za-z]-[A-Za-z]", line):
            if not line.lstrip().startswith("//"):
                line = TOKEN.sub(lambda m: at.get(m[0], m[0]), line)
        out.append(line)
    return "\n".join(out)


def clashes(path, text, at):
    """Names of a file that would fall together: a new name that another name of the file's proofs or clauses has already."""
    if path.endswith(".rt"):
        # functions of the code and words of the clauses are apart
        text = "\n".join(re.findall(r"ghost use [^;]*;", text))
    text = re.sub(r"use\s+[^\s{;]+", "", text)
    had = {m[0] for m in TOKEN.finditer(text) if text[m.start() - 1 : m.start()] != "."}
    back = collections.defaultdict(set)
    for n, m in at.items():
        if n in had:
            back[m].add(n)
    for m, ns in back.items():
        if len(ns) > 1 or (m in had and m not in at):
            yield f"{path}: {', '.join(sorted(ns))} would be {m}, which stands there too"


def pages(top, words, fields):
    """One spelling for each name that the pages cite, where the crates agree on it."""
    all_names = collections.defaultdict(set)
    for own in [*words.values(), fields]:
        for n, m in own.items():
            all_names[n].add(m)
    return {n: next(iter(ms)) for n, ms in all_names.items() if len(ms) == 1 and n not in ms}


def main():
    top = os.getcwd()
    words, fields, own = declared(top)
    changed, said = {}, []
    for path in files(top):
        text = open(path, encoding="utf-8").read()
        at = in_scope(path, text, words, fields, own)
        new = turn(path, text, at)
        said += clashes(path, text, at)
        if new != text:
            changed[path] = new
    cited = pages(top, words, fields)
    docs = os.path.join(top, "docs")
    for path in [os.path.join(top, "README.md"), *(os.path.join(docs, f) for f in sorted(os.listdir(docs)))]:
        if not path.endswith(".md") or os.path.basename(path).startswith("PORT"):
            continue
        text = open(path, encoding="utf-8").read()
        new = re.sub(r"`[^`\n]+`", lambda m: TOKEN.sub(lambda t: cited.get(t[0], t[0]) if re.search(r"[-A-Z]", t[0]) else t[0], m[0]), text)
        if new != text:
            changed[path] = new
    for line in said:
        print("respell: " + line)
    if said and "--force" not in sys.argv:
        raise SystemExit("respell: nothing was written")
    print(f"respell: {len(changed)} files")
    if "--check" not in sys.argv:
        for path, text in changed.items():
            with open(path, "w", encoding="utf-8") as f:
                f.write(text)


if __name__ == "__main__":
    main()
