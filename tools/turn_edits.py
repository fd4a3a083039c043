#!/usr/bin/env python3
"""Brings the must-fail edits over to today's spelling: their wrong meaning stays, their words are those of the text that they change.

usage: turn_edits.py LANDED        at the top of the repository, once, after port.py and snake_names.py; LANDED is a commit or a folder from before them

What port.py and snake_names.py made of a file's words is learned from the file itself, then and now, word by word, and the same is done to each edit's
lines. An edit whose old line does not then stand in its file exactly once is named, and stays as it is, to be turned by hand.
"""

import collections
import difflib
import glob
import os
import re
import subprocess
import sys

from snake_names import candidate, snake

WORD = re.compile(r"[^\s(){}\[\],;.λ\"`|@:]+|[(){}\[\],;.λ\"`|@:]")


def before(landed, path):
    if os.path.isdir(landed):
        with open(os.path.join(landed, path), encoding="utf-8") as f:
            return f.read()
    return subprocess.run(["git", "show", f"{landed}:{path}"], capture_output=True, text=True, check=True).stdout


def learned(old, new):
    """The word that each word of a file became, by the most places."""
    counts = collections.defaultdict(collections.Counter)
    a, b = WORD.findall(old), WORD.findall(new)
    for tag, i, j, k, l in difflib.SequenceMatcher(None, a, b, autojunk=False).get_opcodes():
        if j - i == l - k:
            for x, y in zip(a[i:j], b[k:l]):
                counts[x][y] += 1
    return {x: c.most_common(1)[0][0] for x, c in counts.items()}


def clauses(text):
    """How a clause's values are read today."""
    text = re.sub(r"now \((\w+) \.entry\)", r"\1.now", text)
    text = re.sub(r"now \((\w+) \.exit\)", r"\1.new", text)
    # a projection is written tight: `(c .closed?)` is `c.closed?`, and `(after j .state)` is `(after j).state`
    text = re.sub(r"\(([\w?']+) \.([\w?']+)\)", r"\1.\2", text)
    text = re.sub(r"\(([\w?']+(?: [\w?'.]+)+) \.([\w?']+)\)", r"(\1).\2", text)
    return re.sub(r"(?<=[\w?)']) \.(?=[a-z])", ".", text)


def turn(text, words):
    text = clauses(text)
    return WORD.sub(lambda m: words.get(m[0]) or (snake(m[0]) if candidate(m[0]) else m[0]), text)


def main(argv):
    landed, cached, left, done = argv[0], {}, 0, 0
    for edit in sorted(glob.glob("crates/*/must-fail/*.edit")):
        crate = "/".join(edit.split("/")[:2])
        lines = before(landed, edit).split("\n")
        path = crate + "/" + next(l for l in lines if l.startswith("file: "))[6:]
        if path not in cached:
            with open(path, encoding="utf-8") as f:
                now = f.read()
            cached[path] = (now, learned(before(landed, path), now))
        now, words = cached[path]
        made, ok = [], True
        for line in lines:
            if line.startswith(("old: ", "new: ")):
                text = line[5:]
                same = line.startswith("old: ") and now.count(text) == 1
                to = text if same else turn(text, words)
                if line.startswith("old: "):
                    kept = same
                    ok = ok and now.count(to) == 1
                elif kept:
                    to = text if turn(text, words) == text or all(w in now for w in WORD.findall(text)) else turn(text, words)
                line = line[:5] + to
            made.append(line)
        if ok:
            done += 1
            with open(edit, "w", encoding="utf-8") as f:
                f.write("\n".join(made))
        else:
            left += 1
            print(edit, [(l, now.count(l[5:])) for l in made if l.startswith("old: ")])
    print(f"{done} edits turned, {left} left by hand")


if __name__ == "__main__":
    main(sys.argv[1:])
