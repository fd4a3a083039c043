#!/usr/bin/env python3
"""Tries small slips in the paper's definitions on the paper's own laws, which ought to refuse each.

    bench/slips.py [EACH [FILE..]]

Works on a copy of theory and paper in a temporary folder. A slip changes one place of crates/paper/specs: a number one up
or one down, ltb for leb or leb for ltb, && for || or || for &&, + for - or - for +, also of integers; of binary64 lt for le
or le for lt, ⊕ for ⊖, ⊗ for ⊘ and back; true for false or false for true. Every name that a slip can bring in is in scope in
the copy, so that a slip is refused by a law and not for a name. Of all slips every EACH-th is tried (default 1; a hundred take
some minutes), in the FILEs named (default all). Prints each slip that passes, with its file and line, and at the end their
count. A slip that passes is either no change of meaning or one that no law sees. Needs python3 and rt."""
import re, shutil, subprocess, sys, tempfile
from pathlib import Path

ROOT = Path(__file__).resolve().parent.parent
SWAPS = [("ltb", "leb"), ("leb", "ltb"), ("lt", "le"), ("le", "lt"), ("&&", "||"), ("||", "&&"), (" + ", " - "), (" - ", " + "), (" +ℤ ", " -ℤ "), (" -ℤ ", " +ℤ "),
         (" ⊕ ", " ⊖ "), (" ⊖ ", " ⊕ "), (" ⊗ ", " ⊘ "), (" ⊘ ", " ⊗ "), ("true", "false"), ("false", "true")]
SCOPE = {"Rattle.std.specs.Prelude": ["true", "false", "◌&&◌", "◌||◌", "leb", "ltb", "◌+◌", "◌-◌", "◌+ℤ◌", "◌-ℤ◌"]}


def in_scope(text):
    """The file with every name of SCOPE brought in, by lines after its own `use` lines; and how many lines those are."""
    lines = []
    for module, names in SCOPE.items():
        have = ",".join(re.findall(r"^use %s\.\{([^}]*)\}" % re.escape(module), text, re.M))
        new = [n for n in names if n not in [h.strip() for h in have.split(",")]]
        if new:
            lines.append("use %s.{%s}\n" % (module, ", ".join(new)))
    end = [m.end() for m in re.finditer(r"^use [^{\n]*(\{[^}]*\})?[^\n]*\n", text, re.M)]
    at = end[-1] if end else text.index("\n\n") + 1
    return text[:at] + "".join(lines) + text[at:], len(lines)


def places(line):
    """Every slip of one line, as the line that it makes."""
    if re.match(r"\s*(--|use |pub mod|infix|[\w,\s]*}?$)", line) and "=" not in line:
        return
    code = line.split("--")[0]
    for m in re.finditer(r"(?<![\w'-])(?<!Type )\d+(?![\w'-])", code):
        for n in (int(m.group()) + 1, int(m.group()) - 1):
            if n >= 0:
                yield line[: m.start()] + str(n) + line[m.end():]
    if " = " in code or code.startswith("    "):
        for old, new in SWAPS:
            for m in re.finditer(re.escape(old) if not old.isalpha() else r"\b%s\b" % old, code):
                yield line[: m.start()] + new + line[m.end():]


def main():
    each = int(sys.argv[1]) if len(sys.argv) > 1 else 1
    files = sys.argv[2:]
    with tempfile.TemporaryDirectory() as room:
        for name in ("theory", "paper"):
            shutil.copytree(ROOT / "crates" / name, Path(room) / "crates" / name, ignore=shutil.ignore_patterns("out"))
        (Path(room) / "crates.txt").write_text("theory:\npaper: theory\n")

        def holds():
            return subprocess.run(["rt", "check"], cwd=Path(room) / "crates/paper", capture_output=True).returncode == 0

        tried = passed = count = 0
        for path in sorted((Path(room) / "crates/paper/specs").glob("*.antt")):
            if path.name == "Lib.antt" or files and path.name not in files:
                continue
            whole, added = in_scope(path.read_text())
            path.write_text(whole)
            lines = whole.split("\n")
            if not holds():
                sys.exit(f"slips: {path.name} itself is not proved")
            for at, line in enumerate(lines):
                for slip in places(line):
                    count += 1
                    if count % each:
                        continue
                    tried += 1
                    path.write_text("\n".join(lines[:at] + [slip] + lines[at + 1:]))
                    if holds():
                        passed += 1
                        print(f"{path.name}:{at + 1 - added}: {slip.strip()}", flush=True)
            path.write_text(whole)
        print(f"{tried} slips tried, {passed} pass")


main()
