#!/usr/bin/env python3
"""Brings the repository's own names in specs/ and proofs/ to one spelling: types in upper camel case, all else in snake case.

usage: python3 tools/respell.py [--list]     at the top of the repository, once, after the kit's port.py; --list only prints the names

A name is the repository's own where a file of specs/ or proofs/ defines it: a definition, a lemma, a field, a constructor, or a
variable of such a file. Names that a file brings in from elsewhere, and names that the check makes of the code, stay.
"""

import glob
import re
import sys

CRATES = sorted(p.split("/")[1] for p in glob.glob("crates/*/src"))
WORD = r"[^\s(){}\[\];,.:λ→←∷≡@\"`|↦∙+*/<>=&⌜⌝«»·]"
TOKEN = re.compile(r"(?<![\w'-])[A-Za-zℤℕ_][\w'ℤℕ]*(?:-[\w'ℤℕ]+)+(?![\w'-])")
MADE_FILES = ("Answers.antt", "Invariants.antt", "Proof.antt")

# names that fall together with another, or with a word of the language
SPECIAL = {
    "first_of": "same_first",
    "count-falls": "count_falls_lem",
    "kept-rounds-stand": "kept_rounds_stand_lem",
    "layers-stand": "layers_stand_lem",
    "sizes-fit": "sizes_fit_lem",
    "walks-add": "walks_add_lem",
}

# what port.py leaves by hand: the bound on the cost of a chart, wherever a clause writes it
COST_BOUND = ("Cost-as-CostKind", "C.Cost.CostKind")


def own_module(path):
    m = re.match(r"Rattle\.(\w+)\.(specs|proofs)\b", path)
    return bool(m) and m.group(1) in CRATES and ".declared" not in path


def made_module(path):
    """A module that the check makes of a function: its goals and what it is given."""
    return bool(re.search(r"\.(Goals|Given|Lts|Tie)\b", path)) or ".declared" in path


def read(p):
    with open(p, encoding="utf-8") as f:
        return f.read()


def camel(name):
    return "".join(w[:1].upper() + w[1:] for w in re.split(r"[-_]", name) if w)


def snake(name):
    name = re.sub(r"^ℤ-", "int-", name)
    name = re.sub(r"(?<=[a-z])(?=[A-Z])", "_", name)
    return name.replace("-", "_").lower() if re.search(r"[A-Z]", name) else name.replace("-", "_")


def statements(text):
    """Each top or nested definition's name and signature, and whether it is a type, a field or another word."""
    text = re.sub(r"--[^\n]*", "", text)
    lines = text.split("\n")
    found = []
    for i, line in enumerate(lines):
        m = re.match(r"^(\s*)((?:(?:pub|abbrev|unfoldable|record|data|ruleset)\s+)*)([^\s:{}().;=]+)\s*(:|\(|\{)", line)
        if not m or line.lstrip().startswith(("use ", "module ", "mod ", "let ", "in ", "elim ", "open ")):
            continue
        indent, words, name = m.group(1), m.group(2).split(), m.group(3)
        signature = line[m.end(3):]
        j = i + 1
        while j < len(lines) and lines[j].startswith(indent + " ") and not re.match(r"^\s*(pub|abbrev|unfoldable)\b", lines[j]):
            signature += " " + lines[j].strip()
            j += 1
        if m.group(4) != ":" and not ({"record", "data"} & set(words)):
            continue
        is_type = bool({"record", "data"} & set(words)) or bool(re.search(r"Type 0$", signature.strip()))
        found.append((name, is_type))
    return found


def names():
    """Old name to new name, for every name that is defined here."""
    to = {}
    for p in sorted(glob.glob("crates/*/specs/**/*.antt", recursive=True) + glob.glob("crates/*/proofs/**/*.antt", recursive=True)):
        if p.endswith(MADE_FILES):
            continue
        for name, is_type in statements(read(p)):
            if name in SPECIAL:
                to[name] = SPECIAL[name]
            elif "-" not in name:
                continue
            elif is_type:
                to[name] = camel(name)
            else:
                to[name] = snake(name)
    return to


def imported(text):
    """The names that a file brings in from elsewhere, or from what the check makes."""
    kept = set()
    for m in re.finditer(r"\buse\s+([\w.·+'-]+?)\.\{([^}]*)\}", text):
        if own_module(m.group(1)) and not made_module(m.group(1)):
            continue
        for item in m.group(2).split(","):
            for part in re.split(r"\bas\b", item):
                kept.add(part.strip())
    return kept


def turn_antt(p, to, variables):
    text = read(p)
    kept = imported(text)
    made = p.endswith(MADE_FILES)

    def one(m):
        name = m.group(0)
        before = text_of_line[m.start() - 1:m.start()]
        if name in kept:
            return name
        if name in to:
            if made and before == "." and name not in FIELDS:
                return name
            return to[name]
        if not made and variables and before != ".":
            return snake(name) if name[0].islower() else name
        return name

    out = []
    for line in text.split("\n"):
        code, mark, comment = line.partition("--") if re.search(r"(^|\s)--", line) else (line, "", "")
        m = re.match(r"^(\s*(?:ghost )?(?:pub )?use )([\w.·+'-]+?)(\.\{.*|;?$|\s+as .*)", code)
        if m and not (own_module(m.group(2)) and not made_module(m.group(2))):
            out.append(line)
            continue
        text_of_line = code
        code = TOKEN.sub(one, code)
        if "first_of" in to and "first_of" not in kept:
            code = re.sub(r"(?<![\w'.-])first_of(?![\w'-])", SPECIAL["first_of"], code)
        out.append(code + mark + comment)
    return "\n".join(out)


def turn_rt(p, to):
    text = read(p)
    out = []
    for line in text.split("\n"):
        code, mark, comment = line.partition("//")
        if '"' in code or "b'" in code:
            out.append(line)
            continue
        code = code.replace(*COST_BOUND)
        code = TOKEN.sub(lambda m: to.get(m.group(0), snake(m.group(0))), code)
        out.append(code + mark + comment)
    return "\n".join(out)


def fields():
    found = set()
    for p in glob.glob("crates/*/specs/**/*.antt", recursive=True) + glob.glob("crates/*/proofs/**/*.antt", recursive=True):
        if p.endswith(MADE_FILES):
            continue
        for m in re.finditer(r"^\s+pub ([^\s:]+)\s*:", read(p), re.M):
            found.add(m.group(1))
    return found


def main():
    global FIELDS
    to = names()
    FIELDS = fields()
    if "--list" in sys.argv:
        for old, new in sorted(to.items()):
            print(old, new)
        return
    for p in sorted(glob.glob("crates/*/specs/**/*.antt", recursive=True) + glob.glob("crates/*/proofs/**/*.antt", recursive=True)):
        new = turn_antt(p, to, True)
        if new != read(p):
            with open(p, "w", encoding="utf-8") as f:
                f.write(new)
    for p in sorted(glob.glob("crates/*/src/**/*.rt", recursive=True)):
        new = turn_rt(p, to)
        if new != read(p):
            with open(p, "w", encoding="utf-8") as f:
                f.write(new)


if __name__ == "__main__":
    main()
