#!/usr/bin/env python3
"""Lists the places in crates/*/src where an older form stands that today's Rattle has a plainer one for, point by point.

    python3 tools/places.py [POINT] [--at COMMIT]

POINT is one of 1 to 8 (all if none is given). Without --at it reads the files as they lie in the checkout. It finds candidates by their
text: which of them stay, and why, docs/DESIGN-PASS.md says.
"""
import re
import subprocess
import sys
from difflib import SequenceMatcher

args = [a for a in sys.argv[1:] if a != "--at"]
commit = None
if "--at" in sys.argv:
    commit = sys.argv[sys.argv.index("--at") + 1]
    args.remove(commit)
points = [int(a) for a in args] or list(range(1, 9))


def git(*words):
    return subprocess.run(["git", *words], capture_output=True, text=True, check=True).stdout


def files(ending):
    if commit:
        names = git("ls-tree", "-r", "--name-only", commit, "crates").split("\n")
    else:
        names = git("ls-files", "--cached", "--others", "--exclude-standard", "crates").split("\n")
    return sorted(n for n in set(names) if n.endswith(ending))


def read(name):
    if commit:
        return git("show", f"{commit}:{name}")
    try:
        return open(name).read()
    except FileNotFoundError:
        return ""


def bare(text):
    """Without comments and without the contents of strings."""
    text = re.sub(r"//[^\n]*", "", text)
    return re.sub(r'"(\\.|[^"\\])*"', '""', text)


SRC = {n: bare(read(n)) for n in files(".rt") if "/src/" in n}


def short(name):
    return name.replace("crates/", "").replace("src/", "")


def closing(text, at, pair="{}"):
    depth = 0
    for k in range(at, len(text)):
        if text[k] == pair[0]:
            depth += 1
        elif text[k] == pair[1]:
            depth -= 1
            if depth == 0:
                return k
    return len(text)


def functions():
    for name, text in SRC.items():
        for m in re.finditer(r"\bfn (\w+)", text):
            open_paren = text.index("(", m.end())
            close_paren = closing(text, open_paren, "()")
            # the body: the first brace on a line of its own or at the end of the signature's line, past the clauses
            k = close_paren
            while k < len(text):
                b = text.find("{", k)
                if b < 0:
                    break
                before = text[:b].rstrip(" \t")
                clause = re.search(r"\b(requires|ensures|decreases)( \w+)?\s*$", text[:b])
                if clause:
                    k = closing(text, b) + 1
                    continue
                break
            if b < 0:
                continue
            body = text[b : closing(text, b) + 1]
            head = text[close_paren + 1 : b]
            yield name, m.group(1), text[open_paren + 1 : close_paren], head, body


def show(point, title, places):
    print(f"point {point}: {title}: {len(places)}")
    for p in places:
        print("   ", p)


def point_1():
    found = []
    for name, text in SRC.items():
        for m in re.finditer(r"\benum (\w+)", text):
            body = text[text.index("{", m.end()) + 1 : closing(text, text.index("{", m.end()))]
            variants = re.findall(r"^    (\w+)(\(|\s*\{)?", body, re.M)
            payload = [bool(v[1]) for v in variants]
            shape = None
            if any(v[0] == "Refused" for v in variants) and len(variants) <= 3:
                shape = "a Result of a refusal"
            elif len(variants) == 2 and payload == [True, True]:
                shape = "two cases, each with a value"
            elif len(variants) == 2 and sorted(payload) == [False, True]:
                shape = "one case with a value, one with none"
            if shape:
                found.append(f"{short(name)}: enum {m.group(1)}: {shape}")
        for m in re.finditer(r"\bstruct (\w+)(?:<[^>]*>)? \{", text):
            body = text[m.end() : closing(text, m.end() - 1)]
            if re.search(r":\s*bool,", body) and body.count(":") > 1:
                found.append(f"{short(name)}: struct {m.group(1)}: a flag beside values")
        for m in re.finditer(r"^(?:pub(?:\(crate\))? )?const (\w+): (u8|u16|u32|usize) = (?:b'.'|NOWHERE|\d{5,});", text, re.M):
            found.append(f"{short(name)}: const {m.group(1)}: a number that may stand for a kind")
    for name, fn, params, head, body in functions():
        if re.search(r"\b(older|newer|mark|altered|kind|number|meant): (u8|usize)\b", params) or re.search(r"->\s*u8\s", head + " "):
            found.append(f"{short(name)}: fn {fn}: a small number taken or given, which may stand for a kind")
    show(1, "shapes of Option and Result, flags beside values, numbers for kinds", found)


def tokens(text):
    raw = re.findall(r"[A-Za-z_]\w*|\d+|[^\sA-Za-z_0-9]", text)
    types = {"u8", "u16", "u32", "u64", "i32", "usize", "bool"}
    out = []
    for t in raw:
        if t in types:
            out.append("TYPE")
        elif re.fullmatch(r"\d+", t):
            out.append("NUM")
        elif re.fullmatch(r"[A-Z][A-Z0-9_]+", t):
            out.append("CONST")
        elif re.fullmatch(r"[a-z_]\w*", t) and t not in ("if", "else", "for", "in", "while", "loop", "let", "mut", "return", "match", "fn", "break", "continue", "as"):
            out.append("name")
        elif re.fullmatch(r"[A-Z]\w*", t):
            out.append("Name")
        else:
            out.append(t)
    return out


def point_2():
    all_fns = [(n, f, tokens(p + b)) for n, f, p, h, b in functions() if len(tokens(b)) >= 24]
    parent = list(range(len(all_fns)))

    def root(k):
        while parent[k] != k:
            k = parent[k]
        return k

    for a in range(len(all_fns)):
        for b in range(a + 1, len(all_fns)):
            x, y = all_fns[a][2], all_fns[b][2]
            if abs(len(x) - len(y)) > 0.15 * max(len(x), len(y)):
                continue
            m = SequenceMatcher(None, x, y, autojunk=False)
            if m.quick_ratio() >= 0.93 and m.ratio() >= 0.93:
                parent[root(a)] = root(b)
    groups = {}
    for k, (n, f, _) in enumerate(all_fns):
        groups.setdefault(root(k), []).append(f"{short(n)}:{f}")
    groups = [g for g in groups.values() if len(g) > 1]
    show(2, "groups of functions alike but for names, types and numbers", ["  ".join(g) for g in groups])


def point_3():
    found = []
    for name, fn, params, head, body in functions():
        for m in re.finditer(r"\bwhile ([^{]*)\{", body):
            inner = body[m.end() : closing(body, m.end() - 1)]
            counted = [v for v in re.findall(r"\b[a-z_]\w*\b", m.group(1)) if re.search(rf"\b{v} (\+=|-=) ", inner)]
            if counted:
                found.append(f"{short(name)}: fn {fn}: while {m.group(1).strip()}")
        for m in re.finditer(r"\bfor (\w+) in ([^{]*?)\.\.([^{]*)\{", body):
            inner = body[m.end() : closing(body, m.end() - 1)]
            v = m.group(1)
            if v != "_" and re.search(rf"\w\[[^\]]*\b{v}\b[^\]]*\]", inner):
                found.append(f"{short(name)}: fn {fn}: for {v} in {m.group(2).strip()}..{m.group(3).strip()}")
    show(3, "loops that count an index", found)


def point_4():
    names = ("wide8", "wide16", "wide32", "smaller", "larger", "byte16", "byte32", "pick", "compare", "from_bits", "to_bits", "word_of",
             "from_byte", "magnitude", "integer", "put_number", "put_digit", "put_short", "put_word", "is_marked", "short_at", "whole_word",
             "first_difference", "less_there", "greater_there", "equal_there", "between", "code_between", "turned")
    defined = []
    used = 0
    for name, fn, params, head, body in functions():
        if fn in names:
            defined.append(f"{short(name)}: fn {fn}")
    for text in SRC.values():
        for n in names:
            used += len(re.findall(rf"(?<!fn )(?<!\w){n}\(", text))
    show(4, f"comparisons, conversions and printing written by hand (called in {used} places)", defined)


def point_5():
    lists = []
    for name, fn, params, head, body in functions():
        ps = [re.sub(r"\s+", " ", p).strip() for p in re.split(r",(?![^<]*>)", params)]
        ps = [p for p in ps if p and "self" not in p.split(":")[0]]
        lists.append((name, fn, ps))
    groups = {}
    for name, fn, ps in lists:
        if len(ps) >= 6:
            groups.setdefault(name, []).append(f"{fn} ({len(ps)})")
    show(5, "functions of six parameters and more, by file", [f"{short(n)}: {', '.join(g)}" for n, g in groups.items()])
    print("    functions:", sum(len(g) for g in groups.values()))
    facts = {}
    for name in SRC:
        crate = name.split("/")[1]
        for clause in re.findall(r"requires(?: \w+)? \{(.*?)\}\n", SRC[name]):
            for atom in re.split(r" × ", clause):
                atom = atom.strip().strip("()")
                facts.setdefault((crate, atom), []).append(name)
    often = [(k, v) for k, v in facts.items() if len(v) >= 3]
    show(5, "facts that stand in the contracts of three functions and more", [f"{k[0]}: {k[1]}: {len(v)}" for k, v in often])


def point_6():
    found = []
    pairs = (("survivors", "kept"), ("positions", "found"), ("windows", "count"), ("list", "found"), ("list", "count"), ("buffer", "k"), ("out", "at"))
    for name, fn, params, head, body in functions():
        for a, b in pairs:
            if re.search(rf"\b{a}: &(mut )?\[", params) and re.search(rf"\b{b}: usize", params):
                found.append(f"{short(name)}: fn {fn}: {a} with {b}")
        same = re.findall(r"(\w+): (&(?:mut )?\[\w+\])", params)
        kinds = {}
        for v, t in same:
            kinds.setdefault(t, []).append(v)
        for t, vs in kinds.items():
            known = [v for v in vs if v in ("low", "high", "witness_i", "witness_j", "olders", "newers", "offsets", "below", "above")]
            if len(known) >= 2:
                found.append(f"{short(name)}: fn {fn}: {', '.join(known)} side by side")
    show(6, "buffers with a length beside them, arrays side by side", found)


def point_7():
    found = []
    for name, fn, params, head, body in functions():
        if re.search(r"match \w+\([^)]*\) \{\s*\d+ =>|match \w+ \{\s*\d+ =>", body):
            found.append(f"{short(name)}: fn {fn}: a match on a number")
        if re.search(r"Course::|course_of|match course\b", body):
            found.append(f"{short(name)}: fn {fn}: a match on the course")
    show(7, "switches on which step to run", found)


def point_8():
    alias = []
    for n in files(".antt"):
        if "/proofs/" not in n:
            continue
        hits = re.findall(r"let (\w+) = (?:c|c\.args)\s+in", read(n))
        if hits:
            alias.append((n, len(hits)))
    show(8, f"answers that name a value a second time (lines: {sum(k for _, k in alias)})", [f"{short(n)}: {k}" for n, k in alias])


try:
    for p in points:
        globals()[f"point_{p}"]()
except BrokenPipeError:  # whoever reads this has seen enough
    sys.stderr.close()
