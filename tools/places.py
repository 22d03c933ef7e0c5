#!/usr/bin/env python3
"""Candidate places for a plainer form, in the sources of the repository that it is run in.

It reads crates/*/src/**/*.rt as `rt fmt` lays them out, without comments and without #[cfg(test)] modules, and prints
eight lists of places, each with file:line, then a table of the counts. It reads text and no types, so a place is only
a candidate: whether a plainer form exists is for the reader. `--counts` prints the table alone.

1  an enum of two cases of which one holds nothing and one something; a struct with a bool beside other fields; a local
   that starts as true or false; a `match` or `let .. else` that makes an Option or Result again by hand, or turns one
   into a text; a `match` that gives numbers for the cases of an enum
2  twins: at least six code lines after one another that are equal in two places once each capitalised word and each
   type of std's integers is one sign and each number another; `use` lines and lines without a letter don't count
3  a `for` over a range whose variable is an index in the loop, a `for` with a counter beside it, a `while` with a counter
4  an `impl` of a trait that a derive could write, or of From, TryFrom, Display; a function that prints a value's parts
5  one clause in three or more functions (parameters are numbered as they come in it), and three or more parameters,
   by name and type, in three or more functions
6  a struct with an array or a slice beside a count; a function that searches a slice by a loop
7  a `match` on an enum whose arms each call one function; a table of functions
8  for each crate the definitions in proofs/**/Answers.antt below its folders, and the lines of lemmas in proofs/*.antt
"""
import glob
import re
import sys

INTS = r"[ui](?:8|16|32|64|128|size)"
KINDS = ("PartialEq", "Eq", "Ord", "PartialOrd", "Clone", "Copy", "Default", "From", "TryFrom", "Display")
SEARCHES = r"-> (?:bool|Option<[^>]*>)"


def indent(line):
    return len(line) - len(line.lstrip())


def source(path):
    """The lines of a file, with comments and test modules made empty."""
    lines = [re.sub(r"(^|\s)//.*$", "", line.rstrip("\n")) for line in open(path)]
    at = 0
    while at < len(lines):
        if lines[at].strip() == "#[cfg(test)]":
            end = close_of(lines, at + 1)
            for k in range(at, end + 1):
                lines[k] = ""
            at = end
        at += 1
    return lines


def close_of(lines, at):
    """The line that closes the block that a line begins."""
    depth = indent(lines[at])
    for k in range(at + 1, len(lines)):
        if lines[k].strip().startswith(("}", ")")) and indent(lines[k]) == depth:
            return k
    return at


class Function:
    def __init__(self, path, lines, at):
        self.path, self.at = path, at
        self.name = re.search(r"\bfn (\w+)", lines[at]).group(1)
        depth, k = indent(lines[at]), at
        head = []
        while True:
            line = lines[k]
            clause = re.match(r"\s*(ensures|requires)\b", line)
            if k > at and indent(line) == depth and line.strip() in ("{", "{}"):
                break
            head.append(line)
            if line.endswith(";") or (line.endswith(" {") and not clause) or k + 1 == len(lines):
                break
            k += 1
        self.open = k
        self.end = k if lines[k].endswith((";", "{}")) else close_of(lines, k)
        self.body = list(range(k + 1, self.end))
        whole = "\n".join(head)
        self.head = re.split(r"\n\s*(?:ensures|requires)\b", whole)[0]
        self.clauses = re.findall(r"^\s*((?:ensures|requires)\*?)\s*\w*\s*\{ ?(.*?) ?\}\s*$", whole, re.M)
        inside = re.search(r"\((.*?)\)(?: ->|;| \{|\s*$)", self.head, re.S)
        self.parameters = re.findall(r"(\w+):\s*((?:[^,<(\[]|<[^>]*>|\[[^\]]*\]|\([^)]*\))+)", inside.group(1)) if inside else []
        self.parameters = [(n, t.strip()) for n, t in self.parameters]


def functions(path, lines):
    return [Function(path, lines, k) for k, line in enumerate(lines) if re.match(r"\s*(pub(\(crate\))? )?(const )?fn \w+", line)]


def blocks(lines, pattern):
    """Each block that a line of the pattern begins: its first and last line."""
    return [(k, close_of(lines, k)) for k, line in enumerate(lines) if re.search(pattern, line) and line.endswith("{")]


def arms(lines, first, last):
    """The arms of a match: the text of each on one line, its pattern and what it gives."""
    found, depth = [], indent(lines[first]) + 4
    for k in range(first + 1, last):
        text = lines[k].strip()
        if not text:
            continue
        if indent(lines[k]) == depth and not text.startswith(("}", ")")):
            found.append(text)
        elif found:
            found[-1] += " " + text
    return [tuple(part.strip() for part in arm.split("=>", 1)) for arm in found if "=>" in arm]


def fields(lines, first, last):
    return re.findall(r"^\s*(?:pub(?:\(crate\))? )?(\w+): (.*?),?$", "\n".join(lines[first + 1:last]), re.M)


def cases(lines, first, last):
    depth = indent(lines[first]) + 4
    return [l.strip() for l in lines[first + 1:last] if l.strip() and indent(l) == depth and re.match(r"[A-Z]", l.strip())]


REBUILT = (
    (r"^Some\(", r"^\{? ?(return )?(Some|Ok|Err)\("),
    (r"^None$", r"^\{? ?(return )?(None\b|Err\(|Ok\()"),
    (r"^Ok\(", r"^\{? ?(return )?(Ok\(|Some\(|None\b|Err\()"),
    (r"^Err\(", r"^\{? ?(return )?(Err\(|Some\(|None\b)"),
)


def point_1(files):
    for path, lines in files.items():
        for first, last in blocks(lines, r"^\s*(pub(\(crate\))? )?enum "):
            named = cases(lines, first, last)
            if len(named) == 2 and sum(("(" in c or "{" in c) for c in named) == 1:
                yield path, first, "an enum of two cases, one of them empty: " + lines[first].split("enum ")[1].rstrip(" {")
        for first, last in blocks(lines, r"^\s*(pub(\(crate\))? )?struct "):
            kept = fields(lines, first, last)
            for name, kind in kept:
                if kind == "bool" and len(kept) > 1:
                    yield path, first, f"the flag `{name}` beside values"
        for k, line in enumerate(lines):
            if found := re.search(r"let (?:mut )?(\w+) = (?:true|false);", line):
                yield path, k, f"the flag `{found.group(1)}`"
            if re.search(r"let (Ok|Some|Err)\(.*else \{$", line) and re.search(r"return (Err|None)", " ".join(lines[k:k + 4])):
                yield path, k, "let .. else: " + line.strip()
            if re.search(r"return Err\(anyhow!", line) and not re.search(r"else \{$", lines[k - 1]):
                yield path, k, line.strip()
        for first, last in blocks(lines, r"\bmatch "):
            taken = arms(lines, first, last)
            again = [f"{a} => {b}" for a, b in taken if any(re.search(p, a) and re.search(g, b) for p, g in REBUILT)]
            if again:
                yield path, first, "match: " + "; ".join(again)[:140]
            numbers = [b for a, b in taken if "::" in a and re.match(r"\(?\d+\b", b)]
            if len(numbers) > 1:
                yield path, first, f"{len(numbers)} numbers for cases"


def point_2(files):
    said = []
    for path, lines in files.items():
        skip = False
        for k, line in enumerate(lines):
            text = line.strip()
            if skip or re.match(r"(pub )?(ghost )?use ", text):
                skip = not text.endswith(";")
                continue
            if re.search(r"[^\W\d]", text):
                text = re.sub(rf"\b(?:[A-Z]\w*|{INTS})\b", "T", text)
                said.append((path, k, re.sub(r"\b\d[\d_]*\b", "0", text)))
        said.append((path, None, f"end of {path}"))
    starts = {}
    for k in range(len(said) - 5):
        starts.setdefault(tuple(s[2] for s in said[k:k + 6]), []).append(k)
    for a in range(len(said) - 5):
        for b in starts[tuple(s[2] for s in said[a:a + 6])]:
            if b <= a or (a and said[a - 1][2] == said[b - 1][2]):
                continue
            n = 6
            while b + n < len(said) and said[a + n][2] == said[b + n][2] and a + n < b:
                n += 1
            if a + n <= b:
                yield said[a][0], said[a][1], f"{n} lines as at {said[b][0]}:{said[b][1] + 1}"


def point_3(files):
    for path, lines in files.items():
        for first, last in blocks(lines, r"^\s*for \w+ in .*\.\."):
            name = re.search(r"for (\w+) in", lines[first]).group(1)
            if re.search(rf"\[[^\]]*\b{name}\b[^\]]*\]", "\n".join(lines[first + 1:last])):
                yield path, first, lines[first].strip()
        for first, last in blocks(lines, r"^\s*for "):
            for k in range(first + 1, last):
                if found := re.match(r"\s*(\w+) \+= 1;$", lines[k]):
                    yield path, k, f"the counter `{found.group(1)}` beside a `for`"
        for first, last in blocks(lines, r"^\s*while "):
            body = "\n".join(lines[first + 1:last])
            for name in sorted(set(re.findall(r"\b[a-z]\w*\b", lines[first].split("while ")[1]))):
                if re.search(rf"^\s*{name} [-+*/]?= ", body, re.M):
                    yield path, first, lines[first].strip()
                    break


def point_4(files):
    own = set()
    for lines in files.values():
        own |= set(re.findall(r"(?:struct|enum) (\w+)", "\n".join(lines)))
    for path, lines in files.items():
        for k, line in enumerate(lines):
            found = re.match(r"\s*impl(?:<.*?>)? (?:\w+::)*(\w+)(?:<.*>)? for ", line)
            if found and found.group(1) in KINDS:
                yield path, k, line.strip().rstrip(" {")
        for f in functions(path, lines):
            body = "\n".join(lines[k] for k in f.body)
            if not re.search(r"\bprint(ln)?!", body):
                continue
            for name, kind in f.parameters:
                if set(re.findall(r"\w+", kind)) & own and re.search(rf"match \*?{name} |\b{name}\.\w+;", body):
                    yield path, f.at, f"{f.name} prints `{name}` part by part"


def point_5(files):
    every = [f for path, lines in files.items() for f in functions(path, lines)]
    said = {}
    for f in every:
        for word, text in f.clauses:
            seen = []
            for name in re.findall(r"\w+", text):
                if name in dict(f.parameters) and name not in seen:
                    seen.append(name)
            for k, name in enumerate(seen):
                text = re.sub(rf"(?<![\w.]){name}\b", f"#{k + 1}", text)
            said.setdefault((word, text), []).append(f)
    for (word, text), fs in said.items():
        if len({(f.path, f.at) for f in fs}) >= 3:
            yield fs[0].path, fs[0].at, f"{len(fs)} functions have `{word} {{ {text} }}`: " + ", ".join(f"{f.path.split('/')[1]}::{f.name}" for f in fs)
    sets = set()
    for a in every:
        for b in every:
            both = frozenset(a.parameters) & frozenset(b.parameters)
            if a is not b and len(both) >= 3:
                sets.add(both)
    for both in sorted(sets, key=sorted):
        fs = [f for f in every if both <= set(f.parameters)]
        if len(fs) >= 3:
            yield fs[0].path, fs[0].at, f"{len(fs)} functions take " + ", ".join(f"{n}: {t}" for n, t in sorted(both)) + ": " + ", ".join(f"{f.path.split('/')[1]}::{f.name}" for f in fs)


def point_6(files):
    for path, lines in files.items():
        for first, last in blocks(lines, r"^\s*(pub(\(crate\))? )?struct "):
            kept = fields(lines, first, last)
            rows = [n for n, t in kept if "[" in t]
            counts = [n for n, t in kept if re.search(r"len|count|size", n) and re.match(INTS, t)]
            if rows and counts:
                yield path, first, f"`{', '.join(rows)}` beside `{', '.join(counts)}`"
        for f in functions(path, lines):
            loops = [(a, b) for a, b in blocks(lines, r"^\s*(for|while) ") if f.open < a and b < f.end]
            if re.search(SEARCHES, f.head) and any(re.search(r"\breturn\b", "\n".join(lines[a:b])) for a, b in loops):
                yield path, f.at, f"{f.name} searches by a loop"


def point_7(files):
    for path, lines in files.items():
        for first, last in blocks(lines, r"\bmatch "):
            taken = arms(lines, first, last)
            calls = [re.findall(r"\b(?:[a-z]\w*)(?:::<[^>]*>)?\(", b) for a, b in taken if "::" in a]
            if len(calls) > 1 and len(calls) == len(taken) and all(len(c) == 1 for c in calls):
                yield path, first, lines[first].strip()
        for k, line in enumerate(lines):
            if re.search(r"\[(&?dyn |fn\(|impl Fn)", line):
                yield path, k, line.strip()


def point_8():
    total = [0, 0]
    for crate in sorted(glob.glob("crates/*")):
        answers = sum(len(re.findall(r"^(?:pub )?[^\s:]+ : ", open(p).read(), re.M)) for p in glob.glob(f"{crate}/proofs/*/**/Answers.antt", recursive=True))
        lines = 0
        for p in glob.glob(f"{crate}/proofs/*.antt"):
            if not p.endswith("/Lib.antt"):
                lines += sum(1 for l in open(p) if l.strip() and not re.match(r"\s*--|use ", l))
        total[0] += answers
        total[1] += lines
        print(f"  {crate}: {answers} answers, {lines} lines of lemmas")
    return total


def main():
    quiet = "--counts" in sys.argv
    files = {p: source(p) for p in sorted(glob.glob("crates/*/src/**/*.rt", recursive=True))}
    counts = []
    for number, point in enumerate((point_1, point_2, point_3, point_4, point_5, point_6, point_7), 1):
        places = list(point(files))
        counts.append(len(places))
        if not quiet:
            print(f"point {number}: {len(places)}")
            for path, k, text in places:
                print(f"  {path}:{k + 1}: {text}")
    print("point 8:")
    answers, lines = point_8()
    print("point places")
    for number, count in enumerate(counts, 1):
        print(f"{number}     {count}")
    print(f"8     {answers} answers, {lines} lines of lemmas")


if __name__ == "__main__":
    main()
