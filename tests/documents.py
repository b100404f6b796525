#!/usr/bin/env python3
"""Holds the documents to the source: each clause of a standard that a comment names stands in docs/CLAUSES.md; each name
that docs/CLAUSES.md and docs/GLOSSARY.md give, and each `function.clause` of a crate's page, stands in the source; each
crate has a page; and each link, and each script that a page names, is a file. Prints what does not, and ends with 1
then."""
import pathlib
import re
import sys

TOP = pathlib.Path(sys.argv[1] if len(sys.argv) > 1 else __file__).resolve()
TOP = TOP if TOP.is_dir() else TOP.parent.parent
CLAUSE = re.compile(r"(?<![\d.])(?:2\.2\.\d+(?:\.\d+)*|[89]\.\d+(?:\.\d+)*)(?![\d.]*\d)")
NAME = re.compile(r"`([a-z_]+(?:::[A-Za-z_0-9]+)+)`")


def comments(path):
    """The comments of a source file, each with its line."""
    for count, line in enumerate(path.read_text(encoding="utf-8").splitlines(), 1):
        found = re.search(r"//.*|(?<!\S)--.*", line)
        if found:
            yield count, found.group()


def named_clauses():
    """Each clause that a comment names, with the first place that names it. A standard is named before its clauses."""
    found = {}
    for path in sorted(TOP.glob("crates/*/specs/**/*.antt")) + sorted(TOP.glob("crates/*/src/**/*.rt")):
        if "out" in path.relative_to(TOP).parts:
            continue
        for count, comment in comments(path):
            if "DDS" in comment or "RTPS" in comment or re.match(r"(//[/!]?|--) ?[^()]*\d\.\d[\d.]*\)", comment):
                for clause in CLAUSE.findall(comment):
                    found.setdefault(clause, f"{path.relative_to(TOP)}:{count}")
    return found


def stands(name):
    """Whether a name is a definition of a crate's specs, or a public item of its source."""
    crate, *rest = name.split("::")
    folder = TOP / "crates" / crate
    if rest[0] == "specs":
        path = folder.joinpath("specs", *rest[1:-1]).with_suffix(".antt")
        words = rf"^(?:(?:abbrev|record|data|pub|unfoldable|opaque) )*{re.escape(rest[-1])}\b"
        return path.is_file() and re.search(words, path.read_text(encoding="utf-8"), re.M) is not None
    item = re.compile(rf"\b(?:pub (?:const )?(?:fn|struct|enum|trait|const|type)|fn) {re.escape(rest[-1])}\b")
    return any(item.search(path.read_text(encoding="utf-8")) for path in (folder / "src").glob("**/*.rt"))


def clauses_of(crate):
    """What a crate's page may name: its functions, records and types, and the labels of their clauses and fields."""
    names, labels = set(), set()
    for path in list((TOP / "crates" / crate / "src").glob("**/*.rt")) + list((TOP / "crates" / crate / "specs").glob("**/*.antt")):
        text = path.read_text(encoding="utf-8")
        names.update(re.findall(r"\b(?:fn|struct|enum|trait|mod|record|abbrev pub|data) ([A-Za-z_0-9]+)", text))
        names.update([path.stem])
        labels.update(re.findall(r"\b(?:ensures|requires) ([a-z_0-9]+) \{", text))
        labels.update(re.findall(r"^ +(?:pub )?([a-z_0-9 ]+?) :", text, re.M))
        labels.update(re.findall(r"^ +(?:pub )?([a-z_0-9]+):", text, re.M))
    return names, {word for label in labels for word in label.split()}


def page_faults(crate):
    """What a crate's page names in the form `function.clause` and its source lacks."""
    page = TOP / "crates" / crate / "README.md"
    if not page.is_file():
        return [f"crates/{crate} has no README.md"]
    names, labels = clauses_of(crate)
    promises = re.search(r"^## Promises$(.*?)(?=^## |\Z)", page.read_text(encoding="utf-8"), re.M | re.S)
    found = re.findall(r"`(?:[A-Za-z_0-9]+::)*([A-Za-z_0-9]+)\.([a-z_]+)`", promises.group(1) if promises else "")
    return [
        f"crates/{crate}/README.md names {name}.{label}, which does not stand in the source"
        for name, label in found
        if name not in names or label not in labels and label not in names
    ]


def dead_links():
    """Each file that a page links to, and each script that it names, which is not there."""
    pages = [*TOP.glob("*.md"), *TOP.glob("docs/*.md"), *TOP.glob("examples/*.md"), *TOP.glob("crates/*/README.md")]
    for page in pages:
        text = page.read_text(encoding="utf-8")
        for link in re.findall(r"\]\(([^)#]+)", text):
            if not link.startswith("http") and not (page.parent / link).exists():
                yield f"{page.relative_to(TOP)} links to {link}, which is not there"
        for script in sorted(set(re.findall(r"\b(?:bench|tests|tools)/[\w/]+\.(?:sh|py)\b", text))):
            if not (TOP / script).is_file():
                yield f"{page.relative_to(TOP)} names {script}, which is not there"


def main():
    index = (TOP / "docs/CLAUSES.md").read_text(encoding="utf-8")
    faults = []
    listed = {clause for line in index.splitlines() if line.startswith("| ") for clause in CLAUSE.findall(line.split("|")[1])}
    for clause, place in named_clauses().items():
        if clause not in listed:
            faults.append(f"{place} names {clause}, which docs/CLAUSES.md lacks")
    for page in ("docs/CLAUSES.md", "docs/GLOSSARY.md"):
        for name in sorted(set(NAME.findall((TOP / page).read_text(encoding="utf-8")))):
            if not stands(name):
                faults.append(f"{page} names {name}, which does not stand in the source")
    crates = sorted(path.parent.name for path in TOP.glob("crates/*/src"))
    faults += [fault for crate in crates for fault in page_faults(crate)]
    faults += dead_links()
    print("\n".join(faults) if faults else f"documents: {len(listed)} clauses, {len(crates)} crates; each name stands")
    return 1 if faults else 0


sys.exit(main())
