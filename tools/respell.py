#!/usr/bin/env python3
"""Gives the definitions and lemmas of this repository the kit's spelling: snake case, a dash only between two names.

usage: python3 tools/respell.py [FOLDER]     once, over a repository that the kit's port.py has turned; FOLDER is its top (default: this repository)

The rows of respell.tsv beside it are the names, old and new. Lemmas whose name a definition needs get `_lem` first (LEMMAS).
"""

import os
import re
import subprocess
import sys

HERE = os.path.dirname(os.path.abspath(__file__))
TABLE = os.path.join(HERE, "respell.tsv")

# The module that declares a lemma, and the name, which a definition of that spelling takes.
LEMMAS = [
    ("text.proofs.DigitLaws", "all_digits"),
    ("text.proofs.LineLaws", "lines_at"),
    ("outputs.proofs.PieceLaws", "all_lines"),
    ("intel_hex.proofs.ReturnTrip", "end_line"),
    ("intel_hex.specs.Examples", "most_bytes"),
    ("symbols.proofs.AddLaws", "has_end"),
    ("symbols.proofs.LookupLaws", "is_among"),
    ("runner.proofs.GoLaws", "has_room"),
    ("worked_examples.proofs.ReturnLaws", "has_room"),
    ("roundtrip.proofs.ListedLine", "has_word"),
    ("face_demands.proofs.FaceDemand3", "is_read"),
    ("lines.proofs.FormLaws", "is_word"),
    ("isa.specs.Examples", "not_listed"),
]


def files(top, ending):
    for folder, dirs, names in os.walk(os.path.join(top, "crates")):
        dirs[:] = sorted(d for d in dirs if d != "out")
        for name in sorted(names):
            if name.endswith(ending):
                yield os.path.join(folder, name)


def rename_lemmas(top):
    for path in files(top, ".antt"):
        with open(path, encoding="utf-8") as f:
            text = f.read()
        new = text
        for module, name in LEMMAS:
            declares = path.endswith(os.path.join("crates", *module.split(".")) + ".antt")
            imports = re.search(r"use Rattle\." + re.escape(module) + r"\.\{[^}]*(?<![\w'-])" + name + r"(?![\w'-])", text)
            if declares or imports:
                new = re.sub(r"(?<![\w.'-])" + name + r"(?![\w.'-])", name + "_lem", new)
        if new != text:
            with open(path, "w", encoding="utf-8") as f:
                f.write(new)


def main(argv):
    top = os.path.abspath(argv[0]) if argv else os.path.dirname(HERE)
    kit = os.path.dirname(subprocess.run(["rt", "doc"], capture_output=True, text=True, check=True).stdout.strip())
    snake = os.path.join(kit, "port", "notes", "2026-11-18-names-are-in-snake-case", "snake.py")
    rename_lemmas(top)
    places = [os.path.join(top, p) for p in ("crates", "docs", "README.md") if os.path.exists(os.path.join(top, p))]
    return subprocess.run([sys.executable, snake, "--table", TABLE, "--only", "antt,rt,md", *places]).returncode


if __name__ == "__main__":
    raise SystemExit(main(sys.argv[1:]))
