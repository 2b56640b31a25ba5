#!/usr/bin/env python3
"""Lists the functions of crates/*/src that take all the parameters named, for each group of names: together.py store,n,w c,table"""
import glob
import re
import sys

functions = []
for path in sorted(glob.glob("crates/*/src/**/*.rt", recursive=True)):
    text = open(path, encoding="utf-8").read()
    for found in re.finditer(r"\bfn (\w+)(?:<[^>]*>)?\(([^)]*)\)", text):
        names = {part.split(":")[0].strip() for part in found.group(2).split(",")}
        functions.append((path.split("/")[1] + "::" + found.group(1), names))
for group in sys.argv[1:]:
    wanted = set(group.split(","))
    taking = [name for name, names in functions if wanted <= names]
    print(len(taking), group, *taking)
