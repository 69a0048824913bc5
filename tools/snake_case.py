#!/usr/bin/env python3
"""Turns the repository's own definitions and lemmas to snake case, as the toolchain's pages spell words.

usage: python3 tools/snake_case.py [FOLDER]    FOLDER is a checkout, and this one without a word

It reads what specs/ and proofs/ declare and import under names of their own, and rewrites each such name with a capital or a
dash in it: in .antt files, in the clauses of .rt files, in must-fail edits and in the pages. Types, modules, functions of src/,
names that Rattle makes (goals, the calls and cases of a body), strings, inputs and outputs keep their names. It writes nothing
where two names would fall together. Run `rt fmt` in each crate after it.
"""

import os
import re
import sys

NAME = r"[a-z][\w']*(?:-[\w']+)*"
DECLARED = re.compile(rf"^\s*(?:(?:abbrev|pub) )*({NAME}(?: {NAME})*) :(?: (.*))?$")
ALIAS = re.compile(rf"\bas ({NAME})(?=[,}};\n])")
PARAMETERS = re.compile(rf"[({{]({NAME}(?: {NAME})*) : ")
EQUATION = re.compile(rf"^\s*{NAME}((?: {NAME})+) =")
WORD = re.compile(rf"(?<![\w'-])({NAME})(?![\w'-])")
STRING = re.compile(r'"[^"\n]*"')
TURNED = (".antt", ".rt", ".edit", ".md")

# Names that would fall together with another. A lemma that would have the name of what it speaks of gets `_lem`; the others are
# named by what they are.
APART = {
    # a group's kind of mark, by its letter: values have a `kind_of`
    "kindOf": "mark_kind_of",
    "ruleOf": "clock_rule_of",
    # the lines of commands with their answers: a script has `lines_of`
    "linesOf": "listed_lines",
}


def files(root, ends):
    for folder, dirs, names in os.walk(root):
        dirs[:] = sorted(d for d in dirs if d not in ("out", "target", ".git"))
        for name in sorted(names):
            if name.endswith(ends):
                yield os.path.join(folder, name)


def read(path):
    with open(path, encoding="utf-8") as file:
        return file.read()


def in_function_folder(path):
    """Whether a proof file answers the goals of one function: it lies in a folder below proofs/."""
    parts = path.split(os.sep)
    return "proofs" in parts and parts.index("proofs") < len(parts) - 2


def declarations(root):
    """Own names, and those among them that are fields of a record; and the names that Rattle made."""
    own, fields, made = set(), set(), set()
    for path in files(os.path.join(root, "crates"), (".antt",)):
        in_record = False
        for line in read(path).splitlines():
            if line and not line.startswith(" "):
                in_record = re.match(r"(?:pub )?record ", line) is not None
            found = DECLARED.match(line)
            if not found:
                continue
            names = found.group(1).split()
            if in_function_folder(path) and (found.group(2) or "").startswith("goal."):
                made.update(names)
                continue
            own.update(names)
            if in_record:
                fields.update(names)
    return own, fields, made


def bound(root):
    """Names that an import or a parameter has in one file alone."""
    found = set()
    for path in files(os.path.join(root, "crates"), (".antt", ".rt")):
        text = read(path)
        lines = [line for line in text.splitlines() if path.endswith(".antt") or line.startswith("ghost use")]
        found.update(name for line in lines for name in ALIAS.findall(line + "\n"))
        if path.endswith(".antt"):
            parameters = PARAMETERS.findall(text) + [names for line in lines for names in EQUATION.findall(line)]
            found.update(name for names in parameters for name in names.split())
    return {name for name in found if is_turned(name)}


def snake(name):
    return re.sub(r"([a-z0-9])([A-Z])", lambda m: m.group(1) + "_" + m.group(2).lower(), name).replace("-", "_")


def is_turned(name):
    return re.search(r"[A-Z-]", name) is not None


def new_names(own):
    """Each name that changes, with its new one."""
    kept = {name for name in own if not is_turned(name)}
    turned = sorted(name for name in own if is_turned(name))
    camel = {name: APART.get(name, snake(name)) for name in turned if "-" not in name}
    taken = kept | set(camel.values())
    dashed = {name: snake(name) for name in turned if "-" in name}
    return camel | {name: new + "_lem" if new in taken else new for name, new in dashed.items()}


def together(own, new):
    """Names that would fall together."""
    by_new = {}
    for name in own:
        by_new.setdefault(new.get(name, name), []).append(name)
    return [f"{word}: {', '.join(sorted(names))}" for word, names in sorted(by_new.items()) if len(names) > 1]


def turned(text, path, new, fields):
    """The text with its new names. A name after a dot is a field, a name of a module, or what Rattle calls a part of a body."""
    modules = tuple(alias + "." for alias in ALIAS.findall(text))

    def is_own(found):
        name, before = found.group(1), text[: found.start()]
        return "-" not in name or not before.endswith(".") or name in fields or before.endswith(modules)

    def word(found):
        name = found.group(1)
        return new[name] if name in new and is_own(found) else name

    if path.endswith(".rt"):
        strings = [found.span() for found in STRING.finditer(text)]
        return WORD.sub(lambda m: m.group(1) if any(a <= m.start() < b for a, b in strings) else word(m), text)
    if path.endswith(".md"):
        return re.sub(r"`[^`\n]+`", lambda quoted: WORD.sub(lambda m: new.get(m.group(1), m.group(1)), quoted.group(0)), text)
    return WORD.sub(word, text)


def main(arguments):
    root = arguments[0] if arguments else os.path.dirname(os.path.dirname(os.path.realpath(__file__)))
    own, fields, made = declarations(root)
    new = new_names(own | bound(root))
    clashes = together(own, new) + [f"{name}: Rattle makes it too" for name in sorted(made & set(new))]
    if clashes:
        print("names that fall together:\n" + "\n".join(clashes), file=sys.stderr)
        return 1
    changed = 0
    for path in files(root, TURNED):
        text = read(path)
        after = turned(text, path, new, fields)
        if after != text:
            changed += 1
            with open(path, "w", encoding="utf-8") as file:
                file.write(after)
    print(f"{len(new)} names turned, in {changed} files")
    return 0


if __name__ == "__main__":
    raise SystemExit(main(sys.argv[1:]))
