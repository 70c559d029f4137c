#!/usr/bin/env python3
# Lists the places in crates/*/src, and in the proofs, where an older form may stand, point by point; --list shows each line.
# The lists are candidates; docs/DESIGN-PASS.md has those that are places.
import collections, glob, re, sys

SHOWN = "--list" in sys.argv
sources = sorted(glob.glob("crates/*/src/**/*.rt", recursive=True))
texts = {f: open(f).read() for f in sources}


def lines(pattern):
    return [(f, n, l.strip()) for f in sources for n, l in enumerate(texts[f].split("\n"), 1)
            if re.search(pattern, l) and not l.lstrip().startswith("//")]


def tell(name, found):
    print(f"  {name}: {len(found)}")
    if SHOWN:
        for place in found:
            print("    " + ":".join(str(p) for p in place))


def functions():
    for f in sources:
        for m in re.finditer(r"\bfn (\w+)[^(]*\(([^{]*?)\)\s*(?:->|\n|\{|requires|ensures)", texts[f], re.S):
            yield f, m.group(1), m.group(2)


print("point 1")
tell("enums", lines(r"^\s*(pub(\(.*\))? )?enum "))
tell("answers that are a refusal or nothing", lines(r"Option<Refusal>"))
tell("flags in structs", lines(r"^\s*(pub )?\w+: bool,"))
tell("enums beside a value in structs", lines(r"^\s*(pub )?wants: "))
tell("numbers for none, for a kind or for a refusal", lines(r"(-> u8|Refused\(u8|== 0|> 0 |line: 0|code: u32|line: usize,$|\+ 1$)"))
print("point 2")
methods = {m for t in texts.values() for b in re.findall(r"\npub trait .*?\n\}", t, re.S) for m in re.findall(r"fn (\w+)", b)}
names = collections.defaultdict(set)
for f, n, _ in functions():
    if n not in methods | {"run", "main", "new", "check", "open"}:
        names[re.sub(r"_(un)?signed|(un)?signed_", "", n)].add((f, n))
tell("functions of one name, or of one but for the word signed", [(n, *sorted(w)) for n, w in names.items() if len(w) > 1])
bodies = collections.defaultdict(list)
for f in sources:
    for m in re.finditer(r"\n( *)(?:pub )?fn (\w+).*?\n\1\}", texts[f], re.S):
        body = m.group(0).split("{\n", 1)[-1]
        shape = re.sub(r"\b\w+\b", "w", re.sub(r"\s+", " ", body))
        if len(shape) > 60:
            bodies[shape].append((f, m.group(2)))
tell("bodies of one shape", [b for b in bodies.values() if len(b) > 1])
print("point 3")
tell("loops over a range, while and loop", lines(r"^\s*(let \w+ = )?(for \w+ in [^{]*\.\.|while |loop )"))
tell("counts by hand", lines(r"^\s*\w+ [+-]= 1;"))
print("point 4")
tell("fields copied one by one", lines(r"^\s*(from|to|hours|cost|number): \w+\.(from|to|hours|cost|number),"))
tell("functions that print", lines(r"^\s*(pub )?fn tell_?\w*"))
tell("refusals printed by number", lines(r"\.number\(\)"))
tell("comparisons and conversions by hand", lines(r"fn (below|letter|number|place|is_same_\w+)\b.*self|fn is_same"))
print("point 5")
clauses = collections.defaultdict(set)
for f in sources:
    for m in re.finditer(r"requires(?: \w+)? \{ (.*?) \}\n", texts[f], re.S):
        for fact in re.split(r"\) × \(| × ", m.group(1)):
            fact = re.sub(r"\.(old|now)\b", "", fact).strip("() ")
            clauses[(f.split("/")[1], fact)].add((f, m.start()))
tell("facts in the requires of three or more functions of a crate", [(c, k, len(v)) for (c, k), v in clauses.items() if len(v) > 2])
groups = collections.Counter()
for f, n, ps in functions():
    ps = [p.strip() for p in re.findall(r"(\w+): ", ps) if p not in ("rt", "self")]
    for i in range(len(ps)):
        for j in range(i + 1, len(ps)):
            groups[(f.split("/")[1], ps[i], ps[j])] += 1
tell("pairs of parameters that three or more functions of a crate share", [(*g, c) for g, c in groups.items() if c > 2])
print("point 6")
tell("lengths beside a buffer", lines(r"\], usize\)|count: usize|first: i64|second: i64|third: i64|fourth: i64|\blegs: usize"))
tell("indices computed into a buffer", lines(r"\[[^\]]*[\w)] [+*-] [^\]]*\]"))
print("point 7")
tell("switches and tables", lines(r"\bdyn |: fn\(|idle: bool"))
print("point 8")
answers = [(f, m.group(1)) for f in glob.glob("crates/*/proofs/**/*.antt", recursive=True)
           for m in re.finditer(r"^pub ([^\s]+) : goal", open(f).read(), re.M)]
tell("answers", answers)
