#!/usr/bin/env python3
"""Lists places in src/ that today's Rattle may say better: python3 tools/places.py [POINT] [COMMIT]

Without a commit the files on disk are read. Tests are left out. Each point is a set of patterns over the source; what they find is a candidate,
which is changed or has its reason beside it. POINT is 1 to 7, or 0 for all.
  1  Option for what went wrong, refusals handed on by hand, sentinels and flags    5  facts in three contracts, parameters that travel together
  2  functions and constants that are alike but for names and numbers              6  fixed arrays and flat buffers
  3  loops by hand: while, indices from a range, searches and counts               7  switches: bool parameters, stages timed one by one
  4  conversions, copies and printing by hand"""
import collections, re, subprocess, sys

WORD = re.compile(r'"(?:[^"\\]|\\.)*"|[A-Za-z_]\w*|\d\w*|[^\s\w]')
KEEP = set("fn let mut if else match for in while return Some None Ok Err true false self Self impl struct enum pub use as u8 u16 u32 u64 usize i64 bool".split())


def sources(commit):
    if commit:
        names = subprocess.run(["git", "ls-tree", "-r", "--name-only", commit, "crates"], capture_output=True, text=True, check=True).stdout.split()
    else:
        names = subprocess.run(["git", "ls-files", "crates"], capture_output=True, text=True, check=True).stdout.split()
    for name in sorted(n for n in names if n.endswith(".rt")):
        text = subprocess.run(["git", "show", f"{commit}:{name}"], capture_output=True, text=True, check=True).stdout if commit else open(name).read()
        text = text.split("#[cfg(test)]")[0]
        yield name, re.sub(r"//[^\n]*", lambda m: " " * len(m[0]), text)


def block(text, at):
    """From the brace at or after `at` to the one that closes it."""
    start = text.index("{", at)
    depth = 0
    for i in range(start, len(text)):
        depth += {"{": 1, "}": -1}.get(text[i], 0)
        if depth == 0:
            return start, i + 1
    return start, len(text)


def head_end(text, i):
    """The next brace or semicolon that stands in no bracket or parenthesis."""
    depth = 0
    while i < len(text) and (depth or text[i] not in "{;"):
        depth += {"(": 1, "[": 1, ")": -1, "]": -1}.get(text[i], 0)
        i += 1
    return i


def functions(text):
    """Name, head with its clauses, body (none for a trait's), and line of each function."""
    for m in re.finditer(r"\bfn (\w+)", text):
        i = head_end(text, m.end())
        while text[i:i + 1] == "{" and re.search(r"\b(requires|ensures)\*?(\s+\w+)?\s*$", text[m.start():i]):  # a clause's, no body's
            i = head_end(text, block(text, i)[1])
        yield m[1], text[m.start():i], text[i:block(text, i)[1]] if text[i:i + 1] == "{" else "", text.count("\n", 0, m.start()) + 1


def line(text, at):
    return text.count("\n", 0, at) + 1


def found(pattern, name, text, what):
    for m in re.finditer(pattern, text):
        yield f"{name}:{line(text, m.start())} {what}: {' '.join(m[0].split())[:70]}"


def point1(files):
    for name, text in files:
        yield from found(r"-> Option<Refusal>", name, text, "went wrong as Option")
        yield from found(r"if let Some\((\w+)\) = [^{;]*\{\s*return (Some|Err)\(", name, text, "handed on by hand")
        yield from found(r"Some\((\w+)\) => (Some\(Refusal|Err\()", name, text, "handed on by hand")
        yield from found(r"Err\((\w+)\) => \{?\s*(Ok\()?Err\(\1", name, text, "handed on by hand")
        yield from found(r"(?m)(?:^ +|\{ )number: (u8\b|\d)", name, text, "a refusal by number")
        yield from found(r"= u32::MAX|, \"\"\)|\.unwrap_or\(0\)", name, text, "sentinel")
        yield from found(r"let mut \w+ = (true|false)", name, text, "flag")
        yield from found(r"Result<Result<", name, text, "Result in a Result")


def point2(files):
    groups = collections.defaultdict(list)
    consts = collections.defaultdict(list)
    for name, text in files:
        for fn, head, body, at in functions(text):
            words = WORD.findall(body)
            if len(words) < 14 or fn == "main":
                continue
            seen = {}
            shape = tuple(w if w in KEEP or not (w[0].isalnum() or w[0] in '_"') else seen.setdefault(w, f"n{len(seen)}") for w in words)
            groups[shape].append(f"{name}:{at} {fn}")
        for m in re.finditer(r"const (\w+): (\w+) =", text):
            if m[2][0].isupper():
                consts[name, m[2]].append(f"{name}:{line(text, m.start())} const {m[1]}")
    for group in groups.values():
        if len(group) > 1:
            yield from (f"{g} has {len(group) - 1} of its shape" for g in group)
    for group in consts.values():
        if len(group) > 3:
            yield from (f"{g}, one of {len(group)}" for g in group)


def point3(files):
    for name, text in files:
        for m in re.finditer(r"\bwhile ([^{]*)\{", text):
            yield f"{name}:{line(text, m.start())} while {' '.join(m[1].split())}"
        for m in re.finditer(r"\bfor (.+?) in ([^{]*?)\s*\{", text):
            if "ghost" in m[2] or " for " in text[m.start() - 30:m.start()] or "\n" in m[1]:
                continue
            start, end = block(text, m.end() - 1)
            body, var = text[start:end], m[1].strip("_ ")
            ranged = ".." in m[2]
            indexed = bool(var) and re.search(rf"\[[^\]]*\b{re.escape(var)}\b[^\]]*\]", body)
            inner = re.sub(r"\bfor .*", "", body)
            if ranged and indexed:
                why = "an index from a range"
            elif re.search(r"\breturn\b", inner):
                why = "a search"
            elif re.search(r"\w+ = \w+\.saturating_add\(1\)|\w+ \+= ", inner):
                why = "a count or a sum"
            else:
                continue
            yield f"{name}:{line(text, m.start())} for {m[1]} in {' '.join(m[2].split())}: {why}"


def point4(files):
    for name, text in files:
        for fn, head, body, at in functions(text):
            if re.fullmatch(r"\{\s*match \*?self \{(\s*\w+::\w+(\(\w+\)|\s*\{[^}]*\})? => [\w\"]+,?)+\s*\}\s*\}", body):
                yield f"{name}:{at} {fn}: a match for each variant"
            elif re.fullmatch(r"\{\s*match \w+ \{(\s*(\d+|_) => [^,]+,)+\s*\}\s*\}", body):
                yield f"{name}:{at} {fn}: from a number by hand"
            elif re.search(r"256\s*\*\s*\(?\w+\(?.*\bbytes|65536 \* byte|& 0xffff", body):
                yield f"{name}:{at} {fn}: bytes or bits by hand"
            elif len(re.findall(r"println!\(rt; \"[^\"]*\{six_volumes\}", body)) > 0:
                yield f"{name}:{at} {fn}: printed by hand"
            elif re.search(r"else \{\s*0\s*\}\s*\}$", body) and len(body) < 110:
                yield f"{name}:{at} {fn}: a default by hand"
            elif re.fullmatch(r"\{\s*if (\w+) < (\w+) \{ \1 \} else \{ \2 \}\s*\}", body):
                yield f"{name}:{at} {fn}: the lesser by hand"
        yield from found(r"impl From<\w+> for \w+", name, text, "From by hand")
        for m in re.finditer(r"\{([^{}]*)\}", text):
            if len(re.findall(r"\b(\w+): \w+\.\1\b", m[1])) >= 2:
                yield f"{name}:{line(text, m.start())} copied field by field"


def facts(clause):
    depth, part, parts = 0, "", []
    for word in re.split(r"( × |[()])", clause):
        depth += {"(": 1, ")": -1}.get(word, 0)
        if word == " × ":
            parts.append(part)
            part = ""
        else:
            part += word
    for p in parts + [part]:
        p = p.strip()
        while p.startswith("(") and p.endswith(")"):
            p = p[1:-1].strip()
        if " × " in p:
            yield from facts(p)
        elif p:
            yield re.sub(r"\.(now|old|entry|new)\b", "", p)


def point5(files):
    told, pairs = collections.defaultdict(set), collections.defaultdict(set)
    for name, text in files:
        crate = name.split("/")[1]
        for fn, head, body, at in functions(text):
            for m in re.finditer(r"requires\s*\w*\s*\{", head):
                start, end = block(head, m.end() - 1)
                for fact in facts(" ".join(head[start + 1:end - 1].split())):
                    told[crate, fact].add(fn)
            params = sorted(set(re.findall(r"\b(\w+: &?(?:'a )?(?:mut )?[\w\[\]<>; 0-9]+?)(?=,|\))", head.split("->")[0].split("requires")[0])))
            for i, p in enumerate(params):
                for q in params[i + 1:]:
                    if not any(x.startswith("rt:") or x.startswith("heap:") for x in (p, q)):
                        pairs[crate, p, q].add((fn, at))
    for (crate, fact), fns in sorted(told.items()):
        if len(fns) >= 3:
            yield f"{crate}: {len(fns)} contracts ask for {fact}"
    for (crate, p, q), fns in sorted(pairs.items()):
        if len(fns) >= 3:
            yield f"{crate}: {len(fns)} functions take {p} and {q}"


def point6(files):
    for name, text in files:
        yield from found(r"(?<=[:=] )&?(?:mut )?\[[\w<>]+; [^\]]+\]", name, text, "fixed array")
        for fn, head, body, at in functions(text):
            flat = re.findall(r"\w+: &(?:'a )?(?:mut )?\[u32\]", head.split("requires")[0].split("ensures")[0])
            if len(flat) >= 2:
                yield f"{name}:{at} {fn} takes {len(flat)} flat buffers"


def point7(files):
    for name, text in files:
        for fn, head, body, at in functions(text):
            for m in re.finditer(r"\b(\w+): bool\b", head.split("->")[0].split("requires")[0]):
                yield f"{name}:{at} {fn} switches on {m[1]}"
        yield from found(r"= watch\.lap\(", name, text, "stage timed by hand")


def main():
    args = sys.argv[1:]
    if args and args[0] in ("-h", "--help"):
        return print(__doc__)
    points = [int(a) for a in args if len(a) == 1 and a.isdigit()]
    commit = next((a for a in args if len(a) > 1), None)
    files = list(sources(commit))
    for n in range(1, 8) if points in ([], [0]) else points:
        listed = list(globals()[f"point{n}"](files))
        print(f"{n}: {len(listed)} places")
        for place in listed:
            print(f"   {place}")


if __name__ == "__main__":
    main()
