#!/usr/bin/env python3
"""Lists the places in crates/*/src that older forms stand at, by point of docs/DESIGN-PASS.md.

    python3 tools/places.py [FOLDER] [--list]

FOLDER is the top of a checkout, or this one. It finds places to look at, by their text; which of them are old, a reader says.
"""
import difflib
import pathlib
import re
import sys

args = [a for a in sys.argv[1:] if not a.startswith("--")]
top = pathlib.Path(args[0] if args else pathlib.Path(__file__).parent.parent)
listing = "--list" in sys.argv


class File:
    def __init__(self, path):
        self.name = str(path.relative_to(top / "crates"))
        lines = path.read_text().split("\n")
        # comments and the clauses' imports are no code
        self.lines = ["" if re.match(r"\s*(//|ghost use)", line) else line for line in lines]
        self.text = "\n".join(self.lines)

    def line(self, at):
        return self.text.count("\n", 0, at) + 1


files = [File(path) for path in sorted(top.glob("crates/*/src/**/*.rt"))]


def found(pattern, skip=None):
    rows = []
    for file in files:
        for hit in re.finditer(pattern, file.text, re.M):
            text = " ".join(hit.group(0).split())
            if not (skip and re.search(skip, text)):
                rows.append(f"{file.name}:{file.line(hit.start())}  {text}")
    return rows


class Function:
    def __init__(self, file, at, name, head, body):
        self.place = f"{file.name}:{file.line(at)}  {name}"
        self.head = head
        shape = re.findall(r"[A-Za-z_]\w*|\d+|[^\s\w]", body)
        words = {"match", "for", "in", "if", "let", "else", "return", "Ok", "Err", "Some", "None", "while", "loop"}
        self.shape = [w if w in words or not re.match(r"\w", w) else "n" if w[0].isdigit() else "i" for w in shape]


def block(text, at):
    depth = 0
    for k in range(at, len(text)):
        depth += {"{": 1, "}": -1}.get(text[k], 0)
        if depth == 0:
            return k + 1
    return len(text)


def functions():
    for file in files:
        for hit in re.finditer(r"^ *(?:pub(?:\(crate\))? )?(?:extern \"C\" )?fn (\w+)", file.text, re.M):
            # the body is the block that stands alone on its line; a clause's braces end on their own line
            start = re.compile(r"^( *)\{ *$|\) (?:-> [^{;]*)?\{$|[^ ] \{\}$", re.M).search(file.text, hit.end())
            stop = re.compile(r";$", re.M).search(file.text, hit.end())
            # a trait's method without a body ends by a semicolon
            if not start or (stop and stop.start() < start.start()):
                continue
            brace = file.text.index("{", start.end() - 2 if file.text[start.end() - 1] == "}" else start.end() - 1)
            yield Function(file, hit.start(), hit.group(1), file.text[hit.start():brace], file.text[brace:block(file.text, brace)])


def twins():
    all_functions = [f for f in functions() if len(f.shape) >= 24]
    rows = []
    for k, f in enumerate(all_functions):
        for g in all_functions[k + 1:]:
            if abs(len(f.shape) - len(g.shape)) * 4 > len(f.shape):
                continue
            same = difflib.SequenceMatcher(None, f.shape, g.shape, autojunk=False).ratio()
            if same >= 0.88:
                rows.append(f"{f.place} ~ {g.place}  {same:.2f}")
    return rows


def clauses():
    count = {}
    for f in functions():
        for clause in set(re.findall(r"(?:requires|ensures)(?: \w+)? \{ (.*?) \}$", f.head, re.M)):
            # several facts of one shape are one fact, whatever the parameter is called
            count.setdefault(re.sub(r"\b(?!length|drop|take|result|state)\w+\.(old|new|now)", r"x.\1", clause), []).append(f.place)
    return [f"{len(places)} × {clause}" for clause, places in sorted(count.items()) if len(places) >= 3]


def together():
    count = {}
    for f in functions():
        parameters = re.split(r"requires|ensures", f.head)[0].split("(", 1)[-1]
        names = re.findall(r"(\w+): ([^,()]+)", parameters)
        for k, a in enumerate(names):
            for b in names[k + 1:]:
                count.setdefault((a, b), []).append(f.place)
    return [f"{len(p)} × {a[0]}: {a[1].strip()}, {b[0]}: {b[1].strip()}" for (a, b), p in sorted(count.items()) if len(p) >= 3]


def sized():
    rows = []
    for file in files:
        for hit in re.finditer(r"^(?:pub(?:\(crate\))? )?struct (\w+)[^{;]*\{", file.text, re.M):
            body = file.text[hit.end():block(file.text, hit.end() - 1)]
            if re.search(r"\[.+; *\d+\]", body) and re.search(r": usize", body):
                rows.append(f"{file.name}:{file.line(hit.start())}  {hit.group(1)}")
    return rows


integers = r"(?:u8|u16|u32|u64|usize|i8|i16|i32|i64)"
points = {
    "1 an error that a match only passes on": found(r"Err\((\w+)\) => (?:return )?Err\(\1\)"),
    "1 a variant for a refusal beside good ones": found(r"^ +Refused\(Refusal\),|^ +NoSuch\w+ \{[^}]*\},"),
    "1 an error that is a tuple": found(r"Result<[^;{]*, \(\w+, \w+\)>"),
    "1 a length or size of 0 for none": found(r"\b(?:length|size): 0\b|\b(?:length|size) [!=]= 0\b"),
    "1 an arm or call that cannot be": found(r"unreachable!?\("),
    "2 functions of one shape": twins(),
    "3 a loop over a range of indices": found(r"for \w+ in \w+\.\.[^{]*"),
    "3 a while or loop": found(r"(?:^|: )(?: *)(?:while [^{]*|loop) \{"),
    "4 a comparison, copy or default by hand": found(r"^impl.* (?:PartialEq|Eq|PartialOrd|Ord|Hash|Clone|Default)(?:<\w+>)? for \w+"),
    "4 a cast": found(r"[\w.\])]+ as " + integers + r"\b"),
    "4 a conversion by hand": found(r"^ *(?:pub(?:\(crate\))? )?fn (?:of|row|code_of|number|offset|written|done|delivered)\([^)]*\) -> [^{]*"),
    "4 printing by a function": found(r"^fn (?:show|print)_\w+"),
    "5 a clause of three functions": clauses(),
    "5 parameters of three functions": together(),
    "6 a buffer with a length": sized(),
    "6 a search by hand": found(r"for \w+ in [^{]*\{\s*if [^{]*\{\s*return Some[^}]*"),
    "6 pushes one by one": found(r"\w+\.push\(\w+::new\(\)\)\?;"),
    "7 a function as a value": found(r"\bfn\(|Box<dyn|&dyn "),
    "8 a word of the older library": found(r"\b(?:Decides|T result|heap)\b", skip=r"^$"),
}
for point, rows in points.items():
    print(f"{len(rows):4}  {point}")
    if listing:
        for row in rows:
            print("        " + row)
answers = sum(len(re.findall(r"^pub [\w-]+ : goal\.", p.read_text(), re.M)) for p in top.glob("crates/*/proofs/**/Answers.antt"))
lines = sum(p.read_text().count("\n") for p in top.glob("crates/*/proofs/**/*.antt"))
print(f"{answers:4}  8 answers\n{lines:4}  8 lines of proofs")
