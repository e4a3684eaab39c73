#!/usr/bin/env python3
"""After respell.py: the fields of records that take parameters, names cited through a module's other name, and the names of steps.

A step that the checker names after the source has the source's spelling: `c.discard_row`, `c.in_ok-place`.
usage: python3 tools/respell_more.py NAMES, with the lines 'old -> new' that respell.py printed.
"""
import os
import re
import sys

WORD = re.compile(r"(?<![\w'\-])[^\W\d][\w'+]*(?:-[\w'+]+)*(?![\w'\-])")
LIBRARY = """copy_from_slice from_be_bytes to_be_bytes rotate_right rotate_left in_ok in_err in_default type_inv invariant_of is_empty
from_utf8 as_str as_bytes push_str strip_prefix split_once next_back checked_add checked_mul to_vec is_some is_none is_ok is_err
overflow_add overflow_sub overflow_mul overflow_cast overflow_step slice_bounds offset_bounds nonzero_div nonzero_rem lines_in
read_to_end read_to_string write_all split_at split_at_mut get_mut as_mut as_ref from_str parse_u32 to_string from_utf8_lossy
as_slice from_index trim_end trim_start unwrap_or""".split()

names = dict(l.strip().split(" -> ") for l in open(sys.argv[1]) if " -> " in l and not l.startswith("two"))
fields, aliases = set(), {}
for folder, dirs, found in os.walk("crates"):
    dirs[:] = [d for d in dirs if d != "out"]
    for f in found:
        if not f.endswith(".antt"):
            continue
        path = os.path.join(folder, f)
        inside = False
        for line in open(path, encoding="utf-8"):
            if re.match(r"\s*pub record\b", line) and line.rstrip().endswith("where"):
                inside = True
            elif inside and re.match(r"\S", line) and not line.startswith("--"):
                inside = False
            elif inside:
                m = re.match(r"\s+pub ([^\s:]+) :", line)
                if m:
                    fields.add(m[1])
            m = re.match(r"use (Rattle\.\w+\.(?:specs|proofs)\.\w+) as (\w+)$", line)
            if m and m[2] != "goal":
                aliases.setdefault(path, set()).add(m[2])
for folder, dirs, found in os.walk("crates"):
    dirs[:] = [d for d in dirs if d != "out"]
    crate = folder.split("/")[1] if "/" in folder else ""
    for f in found:
        path = os.path.join(folder, f)
        if not f.endswith((".antt", ".rt", ".edit")):
            continue
        text = old = open(path, encoding="utf-8").read()
        made = f in ("Answers.antt", "Invariants.antt", "Proof.antt")
        steps = []
        if made:
            src = os.path.join("crates", crate, "src")
            words = set(LIBRARY)
            for s in os.listdir(src):
                words |= set(re.findall(r"\b[a-zA-Z]\w*_\w+\b", open(os.path.join(src, s), encoding="utf-8").read()))
            steps = sorted(words, key=len, reverse=True)
        goals = set(re.findall(r"goal\.([\w'\-]+)", text))
        for m in re.finditer(r"^use \S+\.(?:Goals|Given)\.\{([^}]*)\}", text, re.M):
            goals |= {n.strip() for n in m[1].split(",")}

        def turn(m):
            w, before = m.group(), text[: m.start()]
            dotted = before.endswith(".")
            if dotted and w in names and names[w] in fields:
                return names[w]
            if dotted and w in names and any(before.endswith(a + ".") for a in aliases.get(path, ())):
                return names[w]
            if made and "-" in w and (dotted or w in goals):
                new = "-" + w + "-"
                for s in steps:
                    new = new.replace("-" + s.replace("_", "-") + "-", "-" + s + "-")
                return new[1:-1]
            return w

        new = WORD.sub(turn, text)
        if new != old:
            open(path, "w", encoding="utf-8").write(new)
