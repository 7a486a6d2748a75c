#!/usr/bin/env python3
"""What the prover doesn't see: names and files in documents that nothing has, unused words of crates.txt, its order, wrong bodies that PROMISES
doesn't name, and long lines of documents.

bench/lint.py

Each finding is a line; the status is 1 where there is one. It is run by hand, and by bench/docs.py.
"""
import glob
import os
import re
import sys

TOP = os.path.dirname(os.path.dirname(os.path.abspath(__file__)))
WIDTH = 120
# Names of other tools and of what they write.
OTHERS = {"write_verilog", "m_0", "m_1", "u_a"}
DOCUMENTS = sorted(os.path.relpath(it, TOP) for folder in ("", "bench/", "crates/", "docs/", "examples/") for it in glob.glob(f"{TOP}/{folder}*.md"))


def text_of(path):
    with open(f"{TOP}/{path}", encoding="utf-8") as it:
        return it.read()


def files_below(folder, *endings):
    """The files of a folder with these endings, but for what a build leaves in out/."""
    for at, folders, names in os.walk(f"{TOP}/{folder}"):
        folders[:] = sorted(it for it in folders if it != "out")
        yield from (f"{at}/{it}"[len(TOP) + 1:] for it in sorted(names) if it.endswith(endings))


def crates_listed():
    """The crates of crates.txt, in its order, with the words behind each."""
    heads = (it.split("#")[0].partition(":") for it in text_of("crates.txt").splitlines())
    return {head.split()[0]: words.split() for head, colon, words in heads if colon}


def words_cited(crate):
    """The libraries that a crate's code, definitions, lemmas and wrong bodies name."""
    found = set()
    for path in files_below(f"crates/{crate}", ".rt", ".antt", ".edit"):
        text = re.sub(r"(//|--).*", "", text_of(path))
        found |= set(re.findall(r"\bRattle\.(\w+)\.", text))
        if not path.endswith(".antt"):
            found |= set(re.findall(r"(?<![\w:.])([a-z_0-9]+)::", text))
    return found


def crates_told():
    """Words of crates.txt that a crate doesn't need, or that name a crate further down."""
    crates = crates_listed()
    place = {it: at for at, it in enumerate(crates)}
    for crate, words in crates.items():
        cited = words_cited(crate)
        for word in words:
            if word not in cited:
                yield f"crates.txt: {crate} names {word}, which it doesn't use"
            elif place.get(word, -1) > place[crate]:
                yield f"crates.txt: {crate} stands above {word}, which it uses"


def names_known():
    """The names that code, definitions, scripts and formats have."""
    known = set(crates_listed()) | OTHERS
    for path in [*files_below("crates", ".rt", ".antt", ".edit"), *files_below("bench", ".py"), *files_below("examples", ".v", ".set"), "bin/build",
                 "bin/lower", "bin/signoff", "crates.txt"]:
        known |= set(re.findall(r"[A-Za-z_]\w*", text_of(path)))
        known |= {os.path.splitext(os.path.basename(path))[0]}
    return known


def prose_of(text):
    """A document without its blocks."""
    return re.sub(r"(?ms)^ *```.*?^ *```", "", text)


def names_told():
    """Backticked names of documents that nothing has: words joined by `_` or `::`, and names of files."""
    known = names_known()
    for document in DOCUMENTS:
        for quoted in sorted(set(re.findall(r"`([^`\n]+)`", prose_of(text_of(document))))):
            if re.fullmatch(r"[A-Za-z_]\w*(::[A-Za-z_]\w*)*", quoted) and ("_" in quoted or "::" in quoted):
                lost = [it for it in quoted.split("::") if it not in known]
                if lost:
                    yield f"{document}: `{quoted}`: nothing is named {lost[0]}"


def files_told():
    """Backticked files and folders of the repository in documents that aren't there."""
    for document in DOCUMENTS:
        for quoted in sorted(set(re.findall(r"`([\w./-]+)`", prose_of(text_of(document))))):
            of_crates = re.match(r"\w+/(src|specs|proofs|data|page)\b", quoted)
            if of_crates or re.match(r"(bin|bench|crates|docs|etc|examples)/(?!X|[A-Z]+(/|$))", quoted) or re.fullmatch(r"[A-Z]+\.md", quoted):
                if not any(os.path.exists(f"{TOP}/{folder}{quoted}") for folder in ("", "docs/", "crates/")):
                    yield f"{document}: `{quoted}` isn't there"


def bodies_told():
    """Wrong bodies that PROMISES doesn't name."""
    told = text_of("docs/PROMISES.md")
    for path in files_below("crates", ".edit"):
        name = os.path.basename(path)[:-len(".edit")]
        if name not in told:
            yield f"{path}: PROMISES doesn't say what it shows"
        if not text_of(path).startswith("// clause: "):
            yield f"{path}: its first line doesn't name the clause that refuses it"


def lines_told():
    """Lines of documents that are too long."""
    for document in DOCUMENTS:
        for number, line in enumerate(text_of(document).splitlines(), 1):
            if len(line) > WIDTH:
                yield f"{document}:{number}: {len(line)} columns"


def main():
    found = [*crates_told(), *names_told(), *files_told(), *bodies_told(), *lines_told()]
    print("\n".join(found) if found else "nothing found")
    sys.exit(1 if found else 0)


if __name__ == "__main__":
    main()
