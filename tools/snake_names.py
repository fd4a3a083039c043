#!/usr/bin/env python3
"""Brings the names of definitions and lemmas to today's spelling: words in snake case, where the kit's port.py left them.

usage: snake_names.py [--check]        at the top of the repository, once, right after port.py

Own names are those that stand in specs/ and in the laws, proofs/*.antt, and come from no library. Each of them with a dash, a prime or a hump
(`open-water`, `n′`, `openWater`) gets its words joined by `_` and its prime an apostrophe, wherever it stands in an .antt file, a clause of src/ or,
between backticks, in a comment or a page. Functions of src/ have such names already, and strings, inputs and outputs are not touched. Names that would
fall together in one file are said, and nothing is written; --check writes nothing at all.
"""

import os
import re
import sys

TOKEN = re.compile(r"[^\s(){}\[\],;.λ\"`|@]+")
HUMP = re.compile(r"(?<=[a-z0-9])(?=[A-Z])|(?<=[A-Z])(?=[A-Z][a-z])")
USE = re.compile(r"\s*(?:pub |ghost )*use ([^{};]+?)(?:\.\{(.*)\}|\.?([^{};.\s]+))? ?;?\s*$")
DECLARED = re.compile(r"(?m)^\s*(?:unfoldable |abbrev |pub )*([a-z][\w']*) :")
# Names that Rattle makes; in the laws they can stand in a projection.
MADE = re.compile(r"(After|At|In|Then|Else|Need|Lts)-")


def snake(name):
    """`openWater` and `open-water` are `open_water`; a capital that stands alone between dashes, as in `F-start`, is a definition's, and stays."""
    parts = name.replace("′", "'").replace("·", "-").split("-")
    words = []
    for part in parts:
        if len(parts) > 1 and re.fullmatch(r"[A-Z]\d?'?", part):
            words.append(part)
        elif re.match(r"[a-z]", part):
            words.append("_".join(w.lower() for w in HUMP.split(part)))
        else:
            words.append(part)
    return "_".join(words)


def candidate(token):
    if not re.match(r"[A-Za-z]", token) or MADE.match(token):
        return False
    if "′" in token or "·" in token or "-" in token.strip("-"):
        return True
    return bool(re.match(r"[a-z]", token)) and re.search(r"[a-z0-9][A-Z]", token) is not None


def files(root):
    for folder, dirs, names in os.walk(os.path.join(root, "crates")):
        dirs[:] = sorted(d for d in dirs if d not in ("out", "must-fail", "data"))
        for f in sorted(names):
            if f.endswith((".antt", ".rt")):
                yield os.path.join(folder, f)


def kind(root, path):
    rel = os.path.relpath(path, os.path.join(root, "crates")).split(os.sep)
    if rel[1] == "specs":
        return "specs"
    if rel[1] == "proofs":
        return "laws" if len(rel) == 3 else "function"
    return "source"


def read(path):
    with open(path, encoding="utf-8") as f:
        return f.read()


def imports(text, own):
    """Names that the use lines bring, from own modules and from others."""
    mine, others = set(), set()
    for line in text.split("\n"):
        m = USE.match(line)
        if not m or "use " not in line:
            continue
        to = mine if m[1].split(".")[0] == "Rattle" and m[1].split(".")[1:2] and m[1].split(".")[1] in own else others
        for it in (m[2] or m[3] or "").split(","):
            for name in it.split(" as "):
                to.add(name.strip())
    return mine, others


def code(text, mark):
    """The text without comments and strings."""
    return re.sub(r'"[^"\n]*"', '""', re.sub(mark + r".*", "", text))


def fields(text):
    """The fields of the records of a file."""
    found, inside = set(), False
    for line in text.split("\n"):
        if re.match(r"\s*(?:unfoldable |pub )*record .* where\s*$", line):
            inside = True
        elif inside and (m := re.match(r"\s+(?:pub )?([^:()]+?) :", line)):
            found |= set(m[1].split())
        elif line.strip() and not line.startswith(" "):
            inside = False
    return found


def standing(said, kind):
    """The names that stand in a file by themselves: no part of a path, no field, and in src/ no function, which may have the name of what it gives."""
    said = re.sub(r"(?m)^(\s*(?:pub |ghost )*use )[^{};]*?(?=[.;]?\{|$)", r"\1", said)
    found = set(re.findall(r"(?<![.\w'-])([A-Za-z][\w'-]*)(?! = )", said))
    if kind == "source":
        found -= set(re.findall(r"(\w+)\(", said))
    return found


def main(argv):
    root = os.getcwd()
    own = set(os.listdir(os.path.join(root, "crates")))
    texts = {p: read(p) for p in files(root)}
    kinds = {p: kind(root, p) for p in texts}
    names, own_fields = set(), set()
    for p, text in texts.items():
        if kinds[p] in ("specs", "laws"):
            mine, others = imports(text, own)
            tokens = {t for t in TOKEN.findall(code(text, "--")) if candidate(t)}
            names |= (tokens | {t for t in mine if candidate(t)}) - others
            own_fields |= fields(text)
    turned = {n: snake(n) for n in names}
    # A lemma that would have the name of a definition gets `_lem`, also where port.py has spelled it.
    humped = {turned[n] for n in names if "-" not in n}
    plain = {n for p, t in texts.items() if kinds[p] == "specs" for n in re.findall(r"(?m)^(?:unfoldable |abbrev |pub )*([a-z]\w*) :", code(t, "--"))}
    turned |= {n: turned[n] + "_lem" for n in names if "-" in n and turned[n] in humped | plain}
    declared = {p: set(DECLARED.findall(code(t, "--"))) if kinds[p] in ("specs", "laws") else set() for p, t in texts.items()}
    lemmas = {n for p, found in declared.items() if kinds[p] == "laws" for n in found if n in humped} - plain
    own_fields &= names

    wrong = 0
    new = {}
    for p, text in texts.items():
        mine, others = imports(text, own)
        mark = "//" if kinds[p] == "source" else "--"
        here = {t for t in TOKEN.findall(code(text, mark)) if candidate(t)}
        if kinds[p] in ("specs", "laws"):
            change = {t for t in here if t in turned} - others
        else:
            change = {t for t in here if t in turned and (t in mine or t in own_fields)} - others
        stands = standing(code(text, mark), kinds[p])
        again = lemmas & (declared[p] | mine)
        for t in sorted(change):
            if turned[t] in again:
                continue
            if turned[t] in stands - change or sum(turned[u] == turned[t] for u in change) > 1:
                print(f"fall together: {os.path.relpath(p, root)}: {t} and {turned[t]}")
                wrong += 1
        lines = []
        for line in text.split("\n"):
            at = line.find(mark)
            head, tail = (line, "") if at < 0 else (line[:at], line[at:])
            pieces = re.split(r'("[^"\n]*")', head)
            for i in range(0, len(pieces), 2):
                pieces[i] = TOKEN.sub(lambda m: turned[m[0]] if m[0] in change else m[0] + "_lem" if m[0] in again else m[0], pieces[i])
            tail = in_prose(tail, turned)
            lines.append("".join(pieces) + tail)
        new[p] = "\n".join(lines)
    spelled = {t for p, text in new.items() if kinds[p] in ("specs", "laws") for t in TOKEN.findall(code(text, "--"))}
    pages = [os.path.join(d, f) for d, _, fs in os.walk(os.path.join(root, "docs")) for f in fs if f.endswith(".md") and f != "PORT.md"]
    for p in [os.path.join(root, "README.md"), *pages]:
        texts[p] = read(p)
        # port.py turned some names before, so a page can still have their first spelling
        new[p] = re.sub(r"`[^`\n]+`", lambda m: in_page(m[0], spelled, turned), texts[p])
    if "--lem" in argv:
        print(sorted(n for n in turned if turned[n].endswith("_lem")), sorted(lemmas))
    if wrong or "--check" in argv:
        print(f"{len(turned)} names, {wrong} fall together; nothing was written")
        return 1 if wrong else 0
    for p, text in new.items():
        if text != texts[p]:
            with open(p, "w", encoding="utf-8") as f:
                f.write(text)
    print(f"{len(turned)} names, {sum(new[p] != texts[p] for p in new)} files")
    return 0


def in_prose(text, turned):
    """A comment: what stands between backticks, and a name with a hump anywhere."""
    text = re.sub(r"`[^`]+`", lambda m: TOKEN.sub(lambda t: turned.get(t[0], t[0]), m[0]), text)
    return re.sub(r"(?<![\w`])[a-z]+[A-Z]\w*", lambda m: turned.get(m[0], m[0]), text)


def in_page(quoted, spelled, turned):
    def one(m):
        t = m[0]
        if t in turned:
            return turned[t]
        return snake(t) if candidate(t) and snake(t) in spelled else t

    return TOKEN.sub(one, quoted)


if __name__ == "__main__":
    raise SystemExit(main(sys.argv[1:]))
