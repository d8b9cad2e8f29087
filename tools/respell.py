#!/usr/bin/env python3
"""Spells the repository's own definitions and lemmas as the library spells its own.

usage: tools/respell.py [--list]        at the top of the repository; --list prints the table of old and new names and writes nothing

What turns, by one rule. A word of a name that begins with a small letter and has capitals inside is written in snake case. A dash
stays in a lemma's name where both sides of it are names of something, a definition's, a constructor's, a field's or a word's of the
library, as in length-each; every other dash is written as an underscore. Types and modules keep their capitals. Names that the
check makes of the source (the goals of a function's proof) stay, and so does everything that isn't declared in specs/ or in a file of
lemmas. A name whose new spelling is somebody else's gets the ending _lem; a line that begins 'ends otherwise:' says so.

It turns .antt files, the clauses and comments of .rt files, must-fail edits, and what stands between backticks in the pages.
Run once, right after the older kit's scripts had turned the library's own names (docs/PORT.md): what it takes for a name of something is
read off the tree as it stood then, so on a later tree it would turn names that are right.
"""

import glob
import re
import sys

TOKEN = r"[^\s(){}\[\].;,@\"«»`|]+"
NAME = re.compile(TOKEN)
DECLARED = re.compile(r"^([ \t]*)((?:(?:abbrev|unfoldable|pub)\s+)*)(?!(?:use|record|data|ruleset|mod|where|unfolding|let|abbrev|unfoldable|pub)\b)(" + TOKEN + r")\s*(?:\{[^}\n]*\}\s*)*:(?![:=])\s", re.M)
USE = re.compile(r"^\s*(?:ghost\s+)?(?:pub\s+)?use\s+(\S+?)\.\{([^}]*)\}", re.M)
# names whose plain spelling would be hidden by a parameter, or is a lemma's or another definition's; one that spells a word of the
# library; and two whose dash joined a name that turns itself
OTHERWISE = {
    "witnessI": "witness_i_of",
    "witnessJ": "witness_j_of",
    "sameSpot": "is_same_spot",
    "allPass": "all_places_pass",
    "byEntries": "meeting_by_entries",
    "insideOf": "inside_part",
    "trace-limit": "trace_bound",
    "patch-limit": "patch_bound",
    "height-limit": "height_bound",
    "width-limit": "width_bound",
    "getD-each": "get_or-each",
    "passing-top-none": "passing_top_none",
    "same-tests-alike": "same_tests_alike",
}
# words that tell what a lemma says and name nothing
PLAIN = {"refl", "total", "trans", "antisym", "sym", "by", "at", "of", "in", "to", "as", "is", "only", "none", "row", "place"}
# a file that belongs to one function, whose goals the check names
FUNCTION = re.compile(r"crates/\w+/proofs/(?:[a-z+]\w*/)+")


def read(path):
    with open(path, encoding="utf-8") as f:
        return f.read()


def snake(word):
    if not re.match(r"[a-z]", word):
        return word
    cut = re.sub(r"(?<=[a-z0-9])(?=[A-Z])|(?<=[A-Z])(?=[A-Z][a-z])", "_", word)
    return re.sub(r"[A-Z]+(?=_|$)|[A-Z](?=[a-z])", lambda m: m[0].lower(), cut) if cut != word else word


def sources():
    antt = sorted(glob.glob("crates/*/specs/**/*.antt", recursive=True) + glob.glob("crates/*/proofs/**/*.antt", recursive=True))
    return antt, sorted(glob.glob("crates/*/src/*.rt")), sorted(glob.glob("crates/*/must-fail/*.edit"))


def declared(paths):
    found = {}
    for p in paths:
        if FUNCTION.match(p):
            continue
        for m in DECLARED.finditer(read(p)):
            if not m[3].startswith("--"):
                found.setdefault(m[3], set()).add(p)
    return found


def known(paths, own):
    """Words that name something other than a lemma."""
    words = {n for n, at in own.items() if any("/specs/" in p for p in at)}
    for p in paths:
        for m in USE.finditer(read(p)):
            if "/proofs/" in p and m[1].startswith("Rattle.") and ".proofs" in m[1] and not m[1].startswith("Rattle.std"):
                continue
            for item in m[2].split(","):
                words.add(item.strip().split(" as ")[0].strip())
    return words


def functions(rt):
    return {m[1] for p in rt for m in re.finditer(r"\bfn (\w+)", read(p))}


def spelled(name, is_lemma, words, made):
    parts = [snake(p) for p in name.split("-")]
    if not is_lemma:
        return "_".join(parts)
    named = [(o in words or n in words) and o not in PLAIN for o, n in zip(name.split("-"), parts)]
    out = parts[0]
    for k in range(1, len(parts)):
        out += ("-" if named[k - 1] and named[k] and parts[k - 1] + "_" + parts[k] not in made else "_") + parts[k]
    return out


def table():
    antt, rt, edits = sources()
    own = declared(antt)
    words = known(antt + rt, own)
    made = functions(rt)
    rows = {}
    for n, at in own.items():
        if not re.match(r"[a-z]", n):
            continue
        new = spelled(n, not any("/specs/" in p for p in at), words, made)
        if new != n:
            rows[n] = new
    # a definition comes before a lemma; what would meet a name that is there already gets the library's ending for such a case
    tokens = {p: set(NAME.findall(re.sub(r"--.*", "", read(p)))) for p in antt + rt}
    every = set().union(*tokens.values())
    taken = set()
    for n in sorted(rows, key=lambda n: (not any("/specs/" in p for p in own[n]), n)):
        for new in [OTHERWISE.get(n, rows[n]), rows[n] + "_lem"]:
            if new not in every and new not in taken:
                break
        else:
            print("stays:", n, "for", rows.pop(n), file=sys.stderr)
            continue
        if new != rows[n]:
            print("ends otherwise:", n, new, file=sys.stderr)
        rows[n] = new
        taken.add(new)
    return rows


def turn_code(text, rows, made):
    """Whole names outside comments. In a function's proof a name behind a dot or behind 'Need-' is the check's own, unless it is a field's."""

    def word(m):
        w = m[0]
        if w in rows and not (made and text[m.start() - 1 : m.start()] == "." and w not in made):
            return rows[w]
        return w

    return NAME.sub(word, text)


def turn_spans(text, rows):
    """In prose: names with capitals inside wherever they stand, others between backticks."""
    text = re.sub(r"[a-z][\w-]*[A-Z][\w-]*", lambda m: rows.get(m[0], m[0]), text)
    return re.sub(r"`[^`\n]+`", lambda m: NAME.sub(lambda w: rows.get(w[0], w[0]), m[0]), text)


def turn_antt(text, rows, made=None):
    lines = []
    for line in text.split("\n"):
        m = re.match(r"^(.*?)((?:^|(?<=\s))--.*)?$", line)
        lines.append(turn_code(m[1], rows, made) + (turn_spans(m[2], rows) if m[2] else ""))
    return "\n".join(lines)


def turn_rt(text, rows):
    lines = []
    for line in text.split("\n"):
        k = line.find("//")
        code, comment = (line, "") if k < 0 else (line[:k], line[k:])
        lines.append(NAME.sub(lambda w: rows.get(w[0], w[0]), code) + turn_spans(comment, rows))
    return "\n".join(lines)


def write(path, old, new):
    if old != new:
        with open(path, "w", encoding="utf-8") as f:
            f.write(new)
        return 1
    return 0


def main(argv):
    rows = table()
    if argv == ["--list"]:
        for n in sorted(rows):
            print(n, rows[n], sep="\t")
        return
    antt, rt, edits = sources()
    fields = set()
    for p in antt:
        for m in DECLARED.finditer(read(p)):
            if m[1] and not FUNCTION.match(p):
                fields.add(m[3])
    n = 0
    for p in antt:
        old = read(p)
        n += write(p, old, turn_antt(old, rows, fields if FUNCTION.match(p) else None))
    for p in rt:
        old = read(p)
        n += write(p, old, turn_rt(old, rows))
    for p in edits:
        old = read(p)
        n += write(p, old, turn_antt(old, rows))
    for p in sorted(glob.glob("*.md") + glob.glob("docs/**/*.md", recursive=True) + glob.glob("reference/*.md")):
        old = read(p)
        n += write(p, old, turn_spans(old, rows))
    print(f"respell: {len(rows)} names, {n} files")


main(sys.argv[1:])
