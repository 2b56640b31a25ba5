#!/usr/bin/env python3
"""Brings the repository's own names in specs/ and proofs/ to snake case, as the library has them: hyphens become underscores.

Run once, at the top, after the kit's port.py. A name is the repository's own where a file of specs/ or proofs/ declares it: in that
file, and in each file that imports it from there. Names of the library, names that Rattle makes for proofs (goals, steps,
invariants), functions of src/, strings and file names stay. Edits in must-fail/ follow the file that they change.
"""

import os
import re
import sys

NAME = r"[^\s(){}\[\];,.:λ∀\"`@|]+"
DECLARED = re.compile(rf"^\s*(?:(?:pub|abbrev|unfoldable)\s+)*({NAME})((?:\s+[({{][^)}}]*[)}}])*)\s*:(?:\s(.*))?$")
HEAD = re.compile(rf"^\s*(?:pub\s+)?(?:data|record)\s+({NAME})")
USE = re.compile(r"^(?:ghost )?use ([^\s{;]+?)\.\{([^}]*)\}", re.M)
# what Rattle makes for a proof has the names that Rattle gives it
MADE = re.compile(r"^(tie|lts|reads|goal|given)\.")


def tokens(text, change):
    """The text with each token that is a name given to `change`, which also gets what stands before it."""
    return re.sub(NAME, lambda m: change(m.group(), text[: m.start()]), text)


def files(top):
    for folder, dirs, names in os.walk(os.path.join(top, "crates")):
        dirs[:] = sorted(d for d in dirs if d not in ("out", "target", ".git"))
        for name in sorted(names):
            if name.endswith((".rt", ".antt")):
                yield os.path.relpath(os.path.join(folder, name), top)


def parts(path, line):
    """A line as its code and its comment."""
    mark = re.search(r"//" if path.endswith(".rt") else r"(?:^|\s)--(?:\s|$)", line)
    return (line, "") if mark is None else (line[: mark.start()], line[mark.start() :])


def declared(text):
    """The names that a file declares, less those that Rattle gives."""
    names, fields, inside, made = set(), set(), False, set()
    for line in text.split("\n"):
        several = re.match(rf"^\s+((?:{NAME} )+): ", line)
        if inside and several:
            names |= set(several.group(1).split())
        if HEAD.match(line):
            inside = True
            names.add(HEAD.match(line).group(1))
        elif line and not line[0].isspace():
            inside = False
        found = DECLARED.match(line)
        if not found:
            continue
        if MADE.match(found.group(3) or "") or re.match(r"(invariant|decreases)-", found.group(1)):
            made.add(found.group(1))
            continue
        names.add(found.group(1))
        if inside and line[0].isspace():
            fields.add(found.group(1))
    return names - made, fields


def module(path):
    crate, rest = re.match(r"crates/(\w+)/(?:specs|proofs)/(.*)\.antt$", path).groups()
    kind = path.split("/")[2]
    return f"Rattle.{crate}.{kind}.{rest.replace('/', '.')}"


def snake(name):
    return re.sub(r"(?<=\w)-(?=\w)|(?<=[₀-₉'])-(?=\w)", "_", name.replace("getD", "get_or"))


def main():
    top = sys.argv[1] if len(sys.argv) > 1 else "."
    texts = {p: open(os.path.join(top, p), encoding="utf-8").read() for p in files(top)}
    own, fields = {}, set()
    for path, text in texts.items():
        if path.endswith(".antt"):
            own[module(path)], more = declared(text)
            fields |= more
    taken = {t for p, text in texts.items() for t in re.findall(NAME, text)}
    renamed, within = {}, {}
    for path, text in texts.items():
        names = set(own[module(path)]) if path.endswith(".antt") else set()
        others, within[path] = set(), {}
        for where, name in re.findall(r"^(?:ghost )?use (\S+) as (\w+);?$", text, re.M):
            within[path][name] = own.get(where, set())
        for where, listed in USE.findall(text):
            for item in listed.split(","):
                word = item.strip().split(" as ")
                if "-" not in item:
                    continue
                if word[0] in own.get(where, set()):
                    names |= set(word)
                else:
                    others.add(word[-1])
        # names that a file binds by itself: what λ, let, binders and the left sides of equations bind
        bound = set()
        if path.endswith(".antt") and "/Proof.antt" not in path:
            bound = set(re.findall(rf"(?:let|λ \(|λ|\(|\{{|  )\s*({NAME}-{NAME}) (?::|=|\.)", text))
            for group in re.findall(rf"[({{]((?:{NAME} )+):", text):
                bound |= set(group.split())
            for line in text.split("\n"):
                if line[:1] and not line[0].isspace() and line.split(" ")[0] in names and re.search(r" =( |$)", line):
                    bound |= set(re.findall(NAME, line[: re.search(r" =( |$)", line).start()]))
        renamed[path] = {n for n in names | bound if "-" in n} - others

    def change(path, name, before):
        if "-" not in name:
            return name
        if before.endswith("."):
            prefix = re.search(r"(\w+)\.$", before)
            return snake(name) if name in fields or (prefix and name in within[path].get(prefix.group(1), ())) else name
        return snake(name) if name in renamed[path] or (name in fields and "/Proof.antt" not in path) else name

    for path, text in texts.items():
        lines = []
        for line in text.split("\n"):
            code, comment = parts(path, line)
            code = tokens(code, lambda n, b: change(path, n, b))
            comment = re.sub(r"`[^`]*`", lambda m: tokens(m.group(), lambda n, b: snake(n) if n in renamed[path] else n), comment)
            lines.append(code + comment)
        new = "\n".join(lines)
        if new != text:
            open(os.path.join(top, path), "w", encoding="utf-8").write(new)
    for folder, _, names in os.walk(os.path.join(top, "crates")):
        for name in names:
            if not name.endswith(".edit"):
                continue
            at = os.path.join(folder, name)
            text, path, lines = open(at, encoding="utf-8").read(), None, []
            for line in text.split("\n"):
                if line.startswith("file: "):
                    path = os.path.relpath(os.path.join(os.path.dirname(folder), line[6:]), top)
                elif line.startswith(("old: ", "new: ")):
                    line = line[:5] + tokens(line[5:], lambda n, b: change(path, n, b))
                lines.append(line)
            if "\n".join(lines) != text:
                open(at, "w", encoding="utf-8").write("\n".join(lines))
    every = {n for names in renamed.values() for n in names}
    for name in sorted(every):
        if snake(name) in taken:
            print(f"look: {name} becomes {snake(name)}, which stood in the repository already")


main()
