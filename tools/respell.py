#!/usr/bin/env python3
"""Brings the repository's own definitions, lemmas and fields to snake case, in the crates and in what the pages quote.

usage: python3 tools/respell.py [--list]      at the top of a tree over which port.py has run

A name counts as the repository's own if a file of specs/ or proofs/ declares it, proofs of single functions aside. Types and modules, which begin with a
capital letter, stay, and so do functions of src/, exported names and strings, which never had another spelling.
"""
import glob
import re
import sys

DECLARED = re.compile(r"^\s*(?:(?:abbrev|unfoldable|private)\s+)*(?:pub\s+)?(?:(?:record|data|ruleset)\s+)?([^\s(){}\[\]:;,.\"]+)(?:\s.*)?\s:(?:\s|$)")
TOKEN = re.compile(r"[^\s(){}\[\]:;,.\"`|=\\!&?@#$%^~«»⌜⌝‘’]+")


# Lemmas that port.py has respelled already, where a definition of that name follows here; and fields, which need no other name.
LEMMAS = ["back_at", "digits_in", "handed_out", "kept_by", "laid_said", "left_by", "on_read", "one_link"]
FIELDS = ["link-terms", "leading-zero"]


def declared():
    """Each name that a file declares, with the files."""
    found = {}
    for f in sorted(glob.glob("crates/*/specs/**/*.antt", recursive=True) + glob.glob("crates/*/proofs/**/*.antt", recursive=True)):
        if f.endswith("/Proof.antt"):
            continue
        for line in open(f, encoding="utf-8"):
            text = line.split("--")[0] if line.lstrip().startswith("--") else line
            if text.startswith("use ") or not text.strip():
                continue
            m = DECLARED.match(text)
            if m:
                found.setdefault(m.group(1), set()).add(f)
    return found


def snake(name):
    name = re.sub(r"(?<=[a-z0-9])(?=[A-Z])", "_", name)
    return name.replace("-", "_").lower()


def renames(found):
    """Old names with the new ones. Where a lemma comes to the name of a definition, `_lem` tells it from that."""
    out = {}
    for n in found:
        if re.match(r"[a-zα-κμ-ω]", n) and re.search(r"[A-Z]|[a-z0-9]-[a-zA-Z0-9]", n):
            out[n] = snake(n)
    kept = set(found) - set(out)
    defined = {new for old, new in out.items() if "-" not in old}
    for old, new in list(out.items()):
        if "-" in old and (new in defined or new in kept) and old not in FIELDS:
            out[old] = new + "_lem"
    for n in LEMMAS:
        if n in defined:
            out[n] = n + "_lem"
    return out


def respelled(text, names):
    return TOKEN.sub(lambda m: names.get(m.group(0), m.group(0)), text)


def quoted(text, names):
    """The words between backticks, in a comment or a page. There port.py respelled nothing, so its own names are turned here too."""
    own = set(names.values())

    def word(m):
        w = m.group(0)
        return names.get(w, snake(w) if re.match(r"[a-z]", w) and snake(w) in own else w)

    return re.sub(r"`[^`\n]*`", lambda m: TOKEN.sub(word, m.group(0)), text)


def turned(text, names, comment):
    """A file's text: code by its words, comments by what they quote."""
    out = []
    for line in text.split("\n"):
        at = line.find(comment)
        if at < 0 or (comment == "--" and not re.search(r"(^|\s)--\s", line)):
            out.append(respelled(line, names))
        else:
            out.append(respelled(line[:at], names) + quoted(line[at:], names))
    return "\n".join(out)


def from_libraries(text):
    """The names that a file has from the kit's libraries, which keep their spelling."""
    found = set()
    for path, names in re.findall(r"^(?:ghost )?use ([^{;\n]*)\{([^}]*)\}", text, re.M):
        crate = re.match(r"Rattle\.(\w+)\.", path)
        if not crate or not glob.glob("crates/" + crate.group(1)):
            found |= {n.strip().split(" as ")[-1] for n in names.split(",")}
    return found


def texts():
    for p, comment in (("crates/*/specs/**/*.antt", "--"), ("crates/*/proofs/**/*.antt", "--"), ("crates/*/src/**/*.rt", "//")):
        for f in sorted(glob.glob(p, recursive=True)):
            yield f, comment


def main():
    found = declared()
    names = renames(found)
    if "--list" in sys.argv:
        for old in sorted(names):
            print(old, names[old], " ".join(sorted(found.get(old, []))))
        return
    changed = []
    for f, comment in texts():
        old = open(f, encoding="utf-8").read()
        theirs = from_libraries(old)
        changed.append((f, old, turned(old, {a: b for a, b in names.items() if a not in theirs}, comment)))
    names = names | {n: n for n in found if n not in names}
    for f in ["README.md"] + sorted(glob.glob("docs/**/*.md", recursive=True)):
        old = open(f, encoding="utf-8").read()
        changed.append((f, old, quoted(old, names)))
    for f, old, new in changed:
        if new != old:
            open(f, "w", encoding="utf-8").write(new)


main()
