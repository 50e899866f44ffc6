#!/usr/bin/env python3
"""Brings the repository's own definitions and lemmas to today's spelling, after port.py has turned that of the library.

usage: tools/respell.py          at the top of the repository; a second run changes nothing

- A word in camel case that begins small becomes snake case: refusalNumber, refusal_number. It turns in proofs, definitions, clauses, comments
  and must-fail edits.
- A dash stays where it joins names: each part is a name of a definition, a field, a constructor or a function. Any other lemma gets underscores.
- The proof of a function f is f_spec.
- A lemma that would meet another name gets _lem.
- A name has no middle dot: Verdict·of becomes VerdictOf.
Types, modules, fields and functions of src/ keep their names.
"""

import collections
import os
import re

WORD = re.compile(r'[^\s(){}.;,@"«»\[\]`|]+')
DECLARED = re.compile(
    r'^\s*(?:(?:abbrev|unfoldable|opaque|data|record|pub|mutual)\s+)*(?P<name>[^\s(){}.;,@"«»:]+)\s+'
    r"(?:\{[^}]*\}\s*|\([^)]*\)\s*)*:\s"
)
IMPORTED = re.compile(r"^use (\S+?)\.\{([^}]*)\}")
CODE = re.compile(r"\b(?:fn|const|static) (\w+)|^\s*(?:pub )?(\w+):", re.M)
WALK = re.compile(r"/proofs/.+/Proof\.antt$")


def files(ends):
    for folder, dirs, names in os.walk("crates"):
        dirs[:] = sorted(d for d in dirs if d not in ("out", "target"))
        for n in sorted(names):
            if n.endswith(ends):
                yield os.path.join(folder, n)


def read(path):
    with open(path, encoding="utf-8") as f:
        return f.read()


def snake(word):
    return re.sub(r"(?<=[a-z0-9])[A-Z]", lambda m: "_" + m[0].lower(), word)


def is_camel(word):
    return bool(re.fullmatch(r"[a-z][A-Za-z0-9]*[a-z0-9][A-Z][A-Za-z0-9]*'*", word))


def names():
    """The names that the repository declares, each with the files that declare it, and the names that a dash may join."""
    declared, joined = collections.defaultdict(set), set()
    for path in files(".antt"):
        for line in read(path).splitlines():
            if line.lstrip().startswith("--"):
                continue
            found = DECLARED.match(line)
            if found:
                declared[found["name"]].add(path)
            found = IMPORTED.match(line)
            if found and not found[1].startswith("Rattle.") or found and found[1].startswith("Rattle.std"):
                joined |= {it.strip().split(" as ")[0] for it in found[2].split(",")}
    for path in files(".rt"):
        for found in CODE.finditer(read(path)):
            joined.add(found[1] or found[2])
    return declared, joined


def parts(words, known):
    """The words, joined to names that are known, the longest first; None where they cannot be."""
    if not words:
        return []
    for n in range(len(words), 0, -1):
        name = "_".join(words[:n])
        if name in known:
            rest = parts(words[n:], known)
            if rest is not None:
                return [name, *rest]
    return None


def table():
    declared, known = names()
    turned = {n: snake(n) for n in declared if is_camel(n)}
    taken = {turned.get(n, n) for n in declared if "-" not in n}
    in_specs = {turned.get(n, n) for n in declared if any("/specs/" in p for p in declared[n])}
    known |= in_specs
    # A lemma that is spelled as a definition is now.
    for n in sorted(declared):
        if n not in turned and n in set(turned.values()):
            turned[n] = n + "_lem"
            taken.add(turned[n])
    for n in sorted(declared):
        if "-" not in n or not re.match(r"\w", n):
            continue
        if all(WALK.search(p) for p in declared[n]):
            if n.endswith("-spec"):
                turned[n] = n.replace("-", "_")
            continue
        found = parts(snake(n).split("-"), known)
        if found and len(found) > 1:
            new = "-".join(found)
        else:
            new = snake(n).replace("-", "_")
        if new == n:
            continue
        while new in taken:
            new += "_lem"
        turned[n] = new
        taken.add(new)
    return turned


def joined(word):
    """A name in camel case for one with a middle dot: Verdict·of, csp·Csp and Running· become VerdictOf, CspRules and RunningState."""
    if not re.fullmatch(r"\w+·\w*", word):
        return word
    head, tail = word.split("·")
    head = "".join(it[:1].upper() + it[1:] for it in head.split("_"))
    if not tail:
        return head + "State"
    tail = tail[:1].upper() + tail[1:]
    return head + ("Rules" if tail == head else tail)


def turn(text, words, may):
    def one(m):
        word = m[0]
        bare = word.rstrip("'")
        if word in words and may(word):
            return words[word]
        if bare in words and may(bare):
            return words[bare] + word[len(bare):]
        return joined(word)

    return WORD.sub(one, text)


def turn_antt(text, words):
    lines = []
    for line in text.split("\n"):
        at = re.search(r'(?<![^\s(){}.;,@"«»])--', line)
        code, comment = (line[: at.start()], line[at.start():]) if at else (line, "")
        lines.append(turn(code, words, lambda w: True) + turn(comment, words, is_camel))
    return "\n".join(lines)


def main():
    words = table()
    for path in files((".antt", ".rt", ".edit")):
        text = read(path)
        if path.endswith(".antt"):
            new = turn_antt(text, words)
        else:
            in_antt = "file: specs/" in text or "file: proofs/" in text
            new = turn(text, words, (lambda w: True) if in_antt else is_camel)
        if new != text:
            with open(path, "w", encoding="utf-8") as f:
                f.write(new)
    print(f"{len(words)} names have a new spelling")


if __name__ == "__main__":
    main()
