#!/usr/bin/env python3
"""Respells the repository's own words in specs/, proofs/ and clauses: snake case for words, camel case for facts.

Run once, at the top of the repository, after the script that turns the spelling of the language itself.
A dash stays only where a lemma's name joins the names of functions, as in `length-first`.
Names of src/ functions, of what is imported from elsewhere and of what the checker makes keep their spelling.
"""
import os
import re
import sys

WORD = re.compile(r"(?<![\w'\-])[^\W\d][\w'+]*(?:-[\w'+]+)*(?![\w'\-])")
DECLARED = re.compile(r"^\s*(?P<how>(?:(?:abbrev|unfoldable|pub|record|data)\s+)*)(?P<name>[^\s:(){},;.]+)\s+:\s")
LET = re.compile(r"\blet\s+(?P<name>[^\s:(){},;=.]+)\s*[:=]")
GHOST = re.compile(r"^\s*(?:pub )?ghost (?P<name>\w+)\s*[:=]")
IMPORT = re.compile(r"^\s*(?:pub )?(?:ghost )?use (?P<module>[^\s{]+)\.\{(?P<names>[^}]*)\}", re.M)
MODULES = {"Fields_merged": "FieldsMerged", "Values_read": "ValuesRead"}
FACTS = {"good": ("crates/formats/proofs/one_context/Answers.antt", "Good")}
# functions of the library that lemmas are named after
LIBRARY = "length map take drop set get_or replicate append cond paste ++ min max zip_with".split()


def files():
    for folder, dirs, names in os.walk("crates"):
        dirs[:] = sorted(d for d in dirs if d != "out")
        for name in sorted(names):
            if name.endswith((".antt", ".rt", ".edit")):
                yield os.path.join(folder, name)


def own(module):
    return any(module.startswith("Rattle." + c + ".") for c in CRATES) and not module.endswith((".Goals", ".Given")) and ".specs.declared" not in module


def plain(name):
    """The name with its library words in today's spelling, and a camel word in snake case."""
    name = re.sub(r"\bgetD\b", "get_or", name)
    if "-" not in name and re.match(r"[a-z]+([A-Z][a-z]+)+$", name):
        name = re.sub(r"[A-Z]", lambda m: "_" + m.group().lower(), name)
    return name


def respelled(name, how, functions):
    name = plain(name)
    parts = name.split("-")
    if re.match(r"[A-Z]\w+$", parts[0]) and len(parts[0]) > 1:
        return "".join(p[0].upper() + p[1:] for p in parts)
    if how == "lemma":
        # the longest names of functions, left to right; a lemma that is nothing but such names keeps its dashes
        joined, at = [], 0
        while at < len(parts):
            for to in range(len(parts), at, -1):
                if "_".join(parts[at:to]) in functions:
                    joined.append("_".join(parts[at:to]))
                    at = to
                    break
            else:
                break
        if at == len(parts) and len(joined) > 1:
            return "-".join(joined)
    if parts[-1] == "++":
        return "_".join(parts[:-1]) + "-++"
    return "_".join(parts).replace("C_", "c_", 1).replace("K_", "k_", 1).replace("E_", "e_", 1).replace("N_", "n_", 1) if re.match(r"[A-Z]$", parts[0]) else "_".join(parts)


CRATES = sorted(os.listdir("crates"))
texts = {p: open(p, encoding="utf-8").read() for p in files()}
declared, fields, HOME = {}, set(), {}
for path, text in texts.items():
    if path.endswith(".rt"):
        for line in text.splitlines():
            m = GHOST.match(line)
            if m:
                declared.setdefault(m["name"], set()).add("member")
                fields.add(m["name"])
        continue
    if not path.endswith(".antt"):
        continue
    record = False
    for line in text.splitlines():
        if line.startswith("--"):
            continue
        m = DECLARED.match(line)
        if m and "goal." not in line:
            how = m["how"].split()
            if "record" in how:
                record = True
            elif not line.startswith("  "):
                record = False
            kind = "function" if {"abbrev", "unfoldable"} & set(how) else "field" if record and line.startswith("  ") else "lemma" if "pub" in how or not line.startswith(" ") else "local"
            if kind == "field":
                fields.add(m["name"])
            declared.setdefault(m["name"], set()).add(kind)
            HOME.setdefault(m["name"], set()).add(path.split("/")[1])
        for m in LET.finditer(line):
            declared.setdefault(m["name"], set()).add("local")

# words that read as plain words in a lemma's name, although a function bears them
PLAIN = {"to", "at", "from"}
CODE = {c: {f for p, t in texts.items() if p.startswith(f"crates/{c}/src/") for f in re.findall(r"\bfn (\w+)", t)} for c in CRATES}
functions = set(LIBRARY) | {plain(n).replace("-", "_") for n, k in declared.items() if "function" in k} - PLAIN
names = {}
for name, kinds in declared.items():
    kind = "function" if "function" in kinds else "lemma" if kinds <= {"lemma", "local"} and "lemma" in kinds and name not in fields else "other"
    new = respelled(name, kind, functions)
    if kind == "lemma" and any(new in CODE[c] for c in HOME[name]):
        new += "_lem"
    if new != name:
        names[name] = new

trouble = 0
for path, text in texts.items():
    kept = set(re.findall(r"goal\.([\w'\-]+)", text))
    for m in IMPORT.finditer(text):
        if not own(m["module"]):
            kept |= {n.split(" as ")[0].strip() for n in m["names"].split(",")}
    for name, (there, new) in FACTS.items():
        if path == there:
            text = re.sub(r"\b" + name + r"\b", new, text)
    seen = set(WORD.findall(text))
    out = []
    for line in text.splitlines(keepends=True):
        cut = line.find("//") if path.endswith(".rt") else line.find("-- ") if path.endswith(".antt") else -1
        code, comment = (line, "") if cut < 0 else (line[:cut], line[cut:])

        def turn(m):
            w = m.group()
            before = code[: m.start()]
            if w in MODULES:
                return MODULES[w]
            if w not in names or w in kept or (before.endswith(".") and w not in fields) or before.endswith('"'):
                return w
            return names[w]

        out.append(WORD.sub(turn, code) + comment)
    new = "".join(out)
    for w in sorted(seen):
        if w in names and w not in kept and names[w] in seen:
            print(f"falls together: {path}: {w} and {names[w]}")
            trouble += 1
    if new != texts[path]:
        open(path, "w", encoding="utf-8").write(new)
for old, new in MODULES.items():
    for path in list(texts):
        if os.path.basename(path) == old + ".antt" and os.path.exists(path):
            os.rename(path, os.path.join(os.path.dirname(path), new + ".antt"))
for name in sorted(names):
    print(f"{name} -> {names[name]}")
back = {}
for old, new in names.items():
    back.setdefault(new, []).append(old)
for new, old in sorted(back.items()):
    if len(old) > 1 or new in declared:
        print(f"two names, one spelling: {old} -> {new}" + (" (declared already)" if new in declared else ""))
print(f"{len(names)} names, {trouble} that fall together", file=sys.stderr)
