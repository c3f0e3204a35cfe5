#!/usr/bin/env python3
"""Spells the names that the repository's own specs/ declare as today's library spells its own.

usage: respell.py [--check] [TOP]

Definitions, fields, lemmas and variables go into snake case (`stateAfter` is `state_after`); a dash of a lemma's name stays
where it joins the names of two definitions, and is `_` elsewhere (`length-table`, `few_nodes`). A lemma that would have a
definition's name gets `_lem`. Functions of src/, strings, exported names, types and modules keep their names, and so does what
a library or the check itself declares. specs/, proofs/, clauses, must-fail edits and the code spans of pages turn together.
It prints each row of the table, old and new. --check writes nothing.
"""
import collections
import glob
import os
import re
import sys

MARKS = {"pattern", "unfoldable", "abbrev", "axiom", "pub", "tactic", "ruleset", "record", "data"}
NOT_NAMES = {"use", "unfolding", "mod", "where", "syntax", "open", "module"}
WORD = r"[^\s(){}.;,@\"«»:`]+"
CAMEL = re.compile(r"[a-z0-9][A-Z]")
DASH = re.compile(r"[^-]-[^-]")
# words of the library that a lemma's name joins by a dash
JOINED = set("length append take drop replicate map set get_or and or nor nand not if iff le lt ge gt eq add sub mul suc".split())
# names in snake case already that would have a definition's name: two lemmas, and an example's image
TAKEN = {"bad_kind": "bad_kind_image", "strict_next": "strict_next_lem", "value_after": "value_after_lem"}
# names that hold an older name of the library's
OLDER = {"getD-padded": "get_or-padded"}
# dashed words that the check makes or the library declares
KEPT = re.compile(r"^(Need|Then|Else|Loop|Begins)-")


def snake(name):
    return re.sub(r"(?<=[a-z0-9])[A-Z]", lambda m: "_" + m[0].lower(), name)


def own_files(top, *folders):
    for folder in folders:
        for path in sorted(glob.glob(os.path.join(top, "crates", "*", folder), recursive=True)):
            if "/out/" not in path:
                yield path


def library_names(text):
    found = set()
    for path, names in re.findall(r"(?m)^(?:pub |ghost )?use ([\w.]+)\.\{([^}]*)\}", text):
        if not path.startswith("Rattle.") or re.match(r"Rattle\.(std|core)\b", path):
            found |= {n.strip().split(" as ")[0].strip("«»") for n in names.replace("\n", " ").split(",")}
    return found


def table(top):
    """Old name -> new name, from what the specs/ say."""
    words, definitions, library = collections.Counter(), set(), set()
    for path in own_files(top, "specs/**/*.antt", "proofs/*.antt"):
        with open(path, encoding="utf-8") as f:
            text = f.read()
        library |= library_names(text)
        for line in text.split("\n"):
            line = re.sub(r"--.*", "", line)
            parts = line.split()
            marks = set()
            while parts and parts[0] in MARKS:
                marks.add(parts.pop(0))
            if parts and marks & {"unfoldable", "abbrev", "record", "data"} and re.match(WORD, parts[0]):
                definitions.add(re.match(WORD, parts[0])[0])
            if re.match(r"\s*(pub |ghost )?(use|mod) ", line):
                continue
            words.update(re.findall(WORD, line))
    names = {snake(d[0].lower() + d[1:]) for d in definitions} | JOINED
    turned = {}
    for word in sorted(words):
        if word in library or word[0].isupper() or KEPT.match(word) or not re.match(r"[a-z]", word):
            continue
        if CAMEL.search(word) or DASH.search(word):
            new = dashed(snake(word), names) if "-" in word else snake(word)
            if new != word:
                turned[word] = OLDER.get(word, new)
    return turned, words, library


def dashed(word, names):
    """The name with a dash only where it joins the names of two definitions."""
    parts = word.split("-")
    begin, out = 0, parts[0]
    for i in range(1, len(parts)):
        left = "_".join(parts[begin:i])
        right = any("_".join(parts[i:j]) in names for j in range(i + 1, len(parts) + 1))
        if left in names and right:
            out, begin = out + "-" + parts[i], i
        else:
            out += "_" + parts[i]
    return out


def turn(text, turned, kind):
    """The text with whole words of the table turned; in prose only code spans and camel case."""
    any_word = re.compile(r"(?<![\w'-])(?<!tie\.)(?<!goal\.)(" + "|".join(sorted(map(re.escape, turned), key=len, reverse=True)) + r")(?![\w'-])")
    camel = re.compile(r"(?<![\w'-])(" + "|".join(sorted((re.escape(w) for w in turned if CAMEL.search(w)), key=len, reverse=True)) + r")(?![\w'-])")

    def all_words(s):
        return any_word.sub(lambda m: turned[m[1]], s)

    def prose(s):
        s = re.sub(r"`[^`\n]+`", lambda m: all_words(m[0]), s)
        return camel.sub(lambda m: turned[m[1]], s)

    if kind == "md":
        return prose(text)
    out = []
    for line in text.split("\n"):
        mark = {"antt": "--", "rt": "//", "edit": "#"}[kind]
        at = line.find(mark) if kind != "edit" else (0 if line.startswith("#") else -1)
        code, comment = (line, "") if at < 0 else (line[:at], line[at:])
        if kind == "rt":
            code = all_words(code) if "ghost use" in code else camel.sub(lambda m: turned[m[1]], code)
        else:
            code = all_words(code)
        out.append(code + prose(comment))
    return "\n".join(out)


def main(argv):
    check = "--check" in argv
    rest = [a for a in argv if not a.startswith("--")]
    top = rest[0] if rest else "."
    turned, words, library = table(top)
    for lemma, other in TAKEN.items():
        camel = [w for w, n in turned.items() if n == lemma and CAMEL.search(w)]
        if camel and lemma in words:
            turned[lemma] = other
    camel = {n for w, n in turned.items() if CAMEL.search(w)}
    for word, new in turned.items():
        if "-" in word and not CAMEL.search(word) and (new in camel or (new in words and new not in turned)):
            turned[word] = new + "_lem"
    meets = collections.defaultdict(set)
    for old, new in turned.items():
        meets[new].add(old)
    for new, olds in sorted(meets.items()):
        if len(olds) > 1 or (new in words and new not in turned) or new in library:
            print("meets:", new, sorted(olds), "declared" if new in words else "", "library" if new in library else "")
    for old, new in sorted(turned.items()):
        print(f"{old}\t{new}")
    if check:
        return 0
    pages = glob.glob(os.path.join(top, "*.md")) + [p for p in glob.glob(os.path.join(top, "docs", "*.md")) if "PORT" not in os.path.basename(p)]
    files = [(p, "antt") for p in own_files(top, "specs/**/*.antt", "proofs/**/*.antt")]
    files += [(p, "rt") for p in own_files(top, "src/*.rt")] + [(p, "edit") for p in own_files(top, "must-fail/*.edit")] + [(p, "md") for p in pages]
    for path, kind in files:
        with open(path, encoding="utf-8") as f:
            text = f.read()
        new = turn(text, turned, kind)
        if new != text:
            with open(path, "w", encoding="utf-8") as f:
                f.write(new)
    return 0


if __name__ == "__main__":
    raise SystemExit(main(sys.argv[1:]))
