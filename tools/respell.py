#!/usr/bin/env python3
"""Brings this repository's own definitions and lemmas to the kit's spelling: words in snake case, facts in camel case.

usage: python3 tools/respell.py [ROOT]    once, after the kit's port.py, on the tree at ROOT (here, if none is named)

names.tsv beside this script has a row for each name: old, a tab, new. The kit's own renaming script does the work: it turns
whole words in the code of .antt files, in clauses and ghost items of .rt files, and in code spans of pages. Names behind `w.`
are the check's and not ours.
"""
import os
import subprocess
import sys

HERE = os.path.dirname(os.path.realpath(__file__))
TURN = "/opt/rattle/port/notes/2026-11-18-names-are-in-snake-case/snake.py"

root = sys.argv[1] if len(sys.argv) > 1 else "."
paths = [os.path.join(root, p) for p in ("crates", "README.md", "docs")]
words = [sys.executable, TURN, "--table", os.path.join(HERE, "names.tsv"), "--only", "antt,rt,md", "--skip-behind", "w"]
raise SystemExit(subprocess.run(words + [p for p in paths if os.path.exists(p)]).returncode)
