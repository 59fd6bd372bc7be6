#!/usr/bin/env python3
"""Prints definitions of specs/: of the words that are named, or else a line for each word that a public contract uses.

`docs/definitions.py WORD..` prints each definition of a word, with its crate and file and the comment above it. If there is none, it
prints all definitions of the files and folders of specs/ that have this name.
`docs/definitions.py` prints the comment of each word that the contract of a public function, a trait or a type cites, by crate and file.
"""

import os
import re
import sys

sys.dont_write_bytecode = True

from graph import PROGRAM, TOP, below, crates

USE = re.compile(r"ghost use Rattle\.(\w+)\.specs\.([\w.]+)\.\{([^}]*)\}", re.DOTALL)
DEFINED = re.compile(r"(?:[a-z]+ )*pub (?:record |data |relation )?([^\s({:]+)(?=[\s({:])")


def text_of(path):
    with open(path, encoding="utf-8") as file:
        return file.read()


def files(folder, ending):
    """The paths of the files below a folder, in order."""
    for base, folders, names in os.walk(folder):
        folders.sort()
        yield from (os.path.join(base, name) for name in sorted(names) if name.endswith(ending))


def public(text):
    """The words of the contracts of public functions and traits of a file, and of what its types are seen as."""
    taken, ends = [], None
    for line in text.split("\n"):
        bare = line.strip()
        if ends is None and re.match(r"pub (const |unsafe )*fn |pub trait ", bare):
            ends = line[: len(line) - len(line.lstrip())] + "}" if "pub trait" in line else "{"
        if ends is not None or (bare.startswith("ghost ") and not bare.startswith("ghost use")):
            taken.append(bare.split("//")[0])
        if ends is not None and (line == ends or (ends == "{" and (bare == "{" or bare.endswith(" {") or bare.endswith(";")))):
            ends = None
    return set(re.findall(r"[^\s(){},.;⟨⟩]+", " ".join(taken)))


def cited(names):
    """The words that public contracts cite: for each crate and file of specs/, which."""
    found = {}
    for name in names:
        for path in files(os.path.join(TOP, "crates", name, "src"), ".rt"):
            text = text_of(path)
            used = public(text)
            for crate, file, words in USE.findall(text):
                for word in re.split(r",\s*", words.strip()):
                    word, _, other = (part.strip() for part in word.partition(" as "))
                    if (other or word) in used:
                        found.setdefault((crate, file.replace(".", "/")), set()).add(word)
    return found


def sentence(comment):
    """A comment as one line that begins with a capital letter and ends with a full stop."""
    text = " ".join(comment)
    return text[:1].upper() + text[1:] + ("" if text.endswith((".", ":", "?")) else ".")


def words_of(path):
    """The head of a file of specs/, and each public word with its comment, which is empty if it has none, and its definition."""
    lines = text_of(path).split("\n")
    head, words = [], []
    for line in lines:
        if not line.startswith("--"):
            break
        head.append(line[2:].strip())
    for at, line in enumerate(lines):
        defined = DEFINED.match(line)
        if defined and not line.startswith(" "):
            first, last = at, at
            while first > 0 and lines[first - 1].startswith("--"):
                first -= 1
            while last < len(lines) and lines[last].strip():
                last += 1
            comment = sentence([text[2:].strip() for text in lines[first:at]]) if first < at else ""
            words.append((defined[1], comment, lines[at:last]))
    return sentence(head) if head else "", words


def specs(crate):
    """The files of specs/ of a crate, without the ending, and their paths."""
    folder = os.path.join(TOP, "crates", crate, "specs")
    for path in files(folder, ".antt"):
        yield os.path.relpath(path, folder)[: -len(".antt")], path


def listed(crate, found):
    """The lines of one crate."""
    for file, path in specs(crate):
        head, words = words_of(path)
        wanted = found.get((crate, file), set())
        told = [(word, text) for word, text, _ in words if word in wanted]
        if told:
            yield f"\n{file}: {head}\n" if head else f"\n{file}\n"
            yield from (f"- {word}: {text}\n" for word, text in told if text)
            plain = [word for word, text in told if not text]
            if plain:
                yield f"- with no comment: {', '.join(plain)}\n"


def defined(names, is_wanted):
    """The definitions of which this is so, by their file and their word."""
    for crate in names:
        for file, path in specs(crate):
            for word, text, lines in words_of(path)[1]:
                if is_wanted(file, word):
                    yield "\n".join([f"{word} (crates/{crate}/specs/{file}.antt)" + (f": {text}" if text else ""), "", *(f"    {line}" for line in lines)])


def told_by(names, wanted):
    """The definitions of a word, or else those of the files and folders of that name."""
    return list(defined(names, lambda file, word: word == wanted)) or list(defined(names, lambda file, word: wanted in file.split("/")))


def main():
    uses = crates()
    product = below(uses, PROGRAM)
    names = [name for name in uses if name in product]
    words = sys.argv[1:]
    if words:
        texts = [(word, told_by(names, word)) for word in words]
        unknown = [word for word, found in texts if not found]
        if unknown:
            sys.exit(f"docs/definitions.py: no file of specs/ defines {', '.join(unknown)}")
        print("\n\n".join(text for _, found in texts for text in found))
    else:
        found = cited(names)
        for crate in names:
            lines = list(listed(crate, found))
            if lines:
                print(f"\n{crate}\n" + "".join(lines), end="")


main()
