#!/usr/bin/env python3
"""The places of docs/DESIGN-PASS.md counted another way: by what functions look like, and not by their names.

Prints functions of one token skeleton, loops whose counter is an index, clauses that stand in three or more functions,
parameters that come together in three or more functions, and own enums of the shape of Option or Result."""
import glob
import os
import re
import sys
from collections import defaultdict

os.chdir(os.path.join(os.path.dirname(os.path.abspath(__file__)), ".."))
WORD = re.compile(r"[A-Za-z_]\w*|\d[\w']*|\"[^\"]*\"|'[^']*'|[^\s\w]")
KEYWORDS = set("fn for in if else match let mut return while loop self Some None Ok Err true false as usize u8 u16 u32 u64 u128 impl "
               "pub crate const struct enum bool".split())


def functions(path):
    """Each function: its name, line, head with clauses, and body."""
    text = re.sub(r"//[^\n]*", "", open(path).read())
    for m in re.finditer(r"\bfn\s+(\w+)", text):
        depth, i, brace = 0, m.end(), None
        while i < len(text):
            c = text[i]
            if c in "([":
                depth += 1
            elif c in ")]":
                depth -= 1
            elif c == ";" and depth == 0:
                break
            elif c == "{" and depth == 0:
                end = closing(text, i)
                before = text[m.end():i].rstrip().split("\n")[-1]
                if re.search(r"(requires|ensures)\*?(\s+\w+)?\s*$", before):
                    i = end
                else:
                    brace = i
                    break
            i += 1
        if brace is not None:
            head, body = text[m.start():brace], text[brace:closing(text, brace) + 1]
            yield m.group(1), text.count("\n", 0, m.start()) + 1, head, body


def closing(text, i):
    depth = 0
    for j in range(i, len(text)):
        depth += {"{": 1, "}": -1}.get(text[j], 0)
        if depth == 0:
            return j
    return len(text) - 1


def skeleton(body):
    names, out = {}, []
    for t in WORD.findall(body):
        if re.match(r"[A-Za-z_]", t) and t not in KEYWORDS:
            t = names.setdefault(t, "n%d" % len(names))
        elif t[0].isdigit() or t[0] in "\"'":
            t = "#"
        out.append(t)
    return " ".join(out)


def show(title, rows):
    print("%4d  %s" % (len(rows), title))
    if "-v" in sys.argv:
        for row in rows:
            print("          " + row)


def main():
    shapes, clauses, params, loops, enums = defaultdict(list), defaultdict(set), defaultdict(set), [], []
    for path in sorted(glob.glob("crates/*/src/**/*.rt", recursive=True)):
        text = open(path).read()
        for m in re.finditer(r"enum (\w+)(?:<\w+>)?\s*\{([^}]*)\}", text):
            variants = [v.strip() for v in re.sub(r"//[^\n]*", "", m.group(2)).split(",") if v.strip()]
            bare = [v for v in variants if "(" not in v]
            if len(variants) == 2 and len(bare) == 1:
                enums.append("%s %s: %s" % (path, m.group(1), ", ".join(variants)))
        for name, line, head, body in functions(path):
            where = "%s:%d %s" % (path, line, name)
            s = skeleton(body)
            if len(s.split()) >= 16:
                shapes[s].append(where)
            for c in re.findall(r"(?:requires|ensures)\*?(?:\s+\w+)?\s*\{(.*)\}", head):
                clauses[re.sub(r"\s+", " ", c.strip())].add(where)
            own = sorted(set(re.findall(r"(\w+):\s*([^,(){}]+?)\s*[,)]", head.split("ensures")[0].split("requires")[0])))
            own = [(n, t) for n, t in own if n != "heap"]
            for a in range(len(own)):
                for b in range(a + 1, len(own)):
                    params[own[a], own[b]].add(where)
            for m in re.finditer(r"for (\w+) in \(?\w[\w.() ]*\.\.", body):
                v = m.group(1)
                if v != "_" and re.search(r"\[(\w+\.)*%s( as usize)?\]" % v, body):
                    loops.append(where + ": for " + v)
            for m in re.finditer(r"let mut (\w+) = 0\w*;", body):
                v = m.group(1)
                if re.search(r"\b%s \+= 1\b" % v, body) and re.search(r"while [^{]*\b%s\b|\[%s\]" % (v, v), body):
                    loops.append(where + ": counts " + v)
    show("1  own enums of the shape of Option or Result", enums)
    show("2  functions of one skeleton", ["; ".join(w) for w in shapes.values() if len(w) > 1])
    show("3  loops whose counter is an index, or that count by hand", loops)
    show("5  clauses in three or more functions", ["%d x %s" % (len(w), c) for c, w in clauses.items() if len(w) > 2 and "result" not in c])
    show("5  pairs of parameters in three or more functions", ["%s, %s: %s" % (a[0] + ": " + a[1], b[0] + ": " + b[1], "; ".join(sorted(x.split()[-1] for x in w))) for (a, b), w in params.items() if len(w) > 2])


main()
