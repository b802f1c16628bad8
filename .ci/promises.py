#!/usr/bin/env python3
"""Looks whether docs/PROMISES.md cites only what there is. Prints what there isn't, and exits with 1 then.

A row has three cells: the promise, its contract, what it leaves open. The second cell cites functions with clauses:

    `crate::function`, `other` (`clause`, `clause.field`), `crate::Type::method` (`contract`)

A name without a crate is of the crate and the type before it. All names in front of a bracket have all its clauses.
`contract` is the one clause that has no name. `clause.field` is a field of a record in the crate's specs/. Of a trait,
`crate::Trait` (`member`), a ghost member is cited.

Each function has to be one that other crates can call. Elsewhere in the page each crate, each `crate::name` and each
path that is cited has to exist."""
import functools
import pathlib
import re
import sys

TOP = pathlib.Path(__file__).resolve().parent.parent
PAGE = "docs/PROMISES.md"
SPAN = r"`[\w:.]+`"
GROUP = re.compile(rf"({SPAN}(?:, {SPAN})*) \(({SPAN}(?:, {SPAN})*)\)")
CRATE = re.compile(r"(?:cd|test|bench)_\w+")


@functools.cache
def sources(crate, folder="src", ending=".rt"):
    files = sorted((TOP / "crates" / crate / folder).rglob(f"*{ending}"))
    return [(file, file.read_text(encoding="utf-8")) for file in files]


@functools.cache
def exported(crate):
    """The names that the crate's lib.rt gives to other crates, and its public modules."""
    text = "".join(text for file, text in sources(crate) if file.name in ("lib.rt", "main.rt"))
    names = set(re.findall(r"\w+", " ".join(re.findall(r"^pub use ([^;]*);", text, re.M))))
    return names | set(re.findall(r"^pub mod (\w+)", text, re.M))


def owner_of(before):
    """The trait or the type in whose block a method stands, with the trait of an impl, and whether it stands there for a trait."""
    heads = re.findall(r"^((?:pub )?(?:unsafe )?(?:trait|impl)\b[^\n]*)", before, re.M)
    if not heads:
        return set(), False
    head = re.sub(r"<[^<>]*>", "", re.sub(r"<[^<>]*>", "", heads[-1])).split("{")[0].split("where")[0]
    words = re.findall(r"\w+", head.split(":")[0])
    names = {word for word in words if word[0].isupper()}
    return names, "trait" in words or "for" in words


def contracts(crate, path):
    """The text between the name of each public function of that path and its body, or its end in a trait."""
    name, owner = path[-1], path[-2] if len(path) > 1 and path[-2][0].isupper() else None
    for file, text in sources(crate):
        for found in re.finditer(rf"^( *)(pub )?(?:final )?(?:const )?fn {name}\b", text, re.M):
            indent, public = found.group(1), found.group(2) is not None
            owners, of_trait = owner_of(text[: found.start()]) if indent else (set(), False)
            if owner not in owners if owner else bool(indent):
                continue
            if not public and not of_trait:
                continue
            if not {owner or name, file.stem} & exported(crate) and file.name != "lib.rt":
                continue
            rest = text[found.start():]
            end = re.search(r"\n *\{ *\n|\n *\{ *\}|;\n", rest)
            yield rest[: end.start()] if end else rest


def members(crate, path):
    """The text of the public trait of that path, which has ghost members."""
    for _, text in sources(crate):
        for found in re.finditer(rf"^pub trait {path[-1]}\b", text, re.M):
            yield text[found.start():].split("\n}\n")[0]


def has_member(trait, member):
    return re.search(rf"^ +ghost {member}:", trait, re.M) is not None


def has_clause(contract, clause):
    named = r"\{" if clause == "contract" else rf"{clause}\b"
    return re.search(rf"\bensures\*? {named}", contract) is not None


def has_field(crate, field):
    return any(re.search(rf"^ +pub {field} :", text, re.M) for _, text in sources(crate, "specs", ".antt"))


def missing_in(cell):
    """What a cell of contracts cites and isn't there."""
    last, end = [], 0
    for group in GROUP.finditer(cell):
        if cell[end: group.start()] not in ("", ", "):
            yield f"not read: {cell[end: group.start()]}"
        end = group.end()
        for name in re.findall(SPAN, group.group(1)):
            parts = name.strip("`").split("::")
            path = parts if CRATE.fullmatch(parts[0]) else last[:-len(parts)] + parts
            last = path
            of_trait = path[-1:] != [] and path[-1][0].isupper()
            named = members if of_trait else contracts
            found = list(named(path[0], path[1:])) if len(path) > 1 else []
            if not found:
                yield f"no public function or trait {'::'.join(path) or name}"
                continue
            for clause in re.findall(SPAN, group.group(2)):
                clause, _, field = clause.strip("`").partition(".")
                if not any((has_member if of_trait else has_clause)(text, clause) for text in found):
                    yield f"no clause `{clause}` on {'::'.join(path)}"
                if field and not has_field(path[0], field):
                    yield f"no field `{field}` of a record in crates/{path[0]}/specs"
    if cell[end:]:
        yield f"not read: {cell[end:]}"


def missing_elsewhere(text):
    """The crates, names and paths that stand in the text and not in the repository."""
    for span in re.findall(r"`([^`\n]+)`", text):
        parts = span.split("::")
        if CRATE.fullmatch(parts[0]):
            if not (TOP / "crates" / parts[0]).is_dir():
                yield f"no crate {parts[0]}"
            elif len(parts) > 1 and not any(
                re.search(rf"\b(?:fn|struct|enum|trait|type|const) {parts[-1]}\b", code) for _, code in sources(parts[0])
            ):
                yield f"no {span}"
        elif re.fullmatch(r"(?:crates|docs|examples)/[\w./]+", span) and not (TOP / span).exists():
            yield f"no {span}"
    for link in re.findall(r"\]\(([\w./]+)\)", text):
        if not (TOP / "docs" / link).exists():
            yield f"no {link}"


def main():
    lines = (TOP / PAGE).read_text(encoding="utf-8").splitlines()
    missing, promises, rows = [], set(), 0
    for number, line in enumerate(lines, 1):
        cells = [cell.strip() for cell in line.strip().strip("|").split("|")] if line.startswith("| ") else None
        if cells is None or cells[0] == "Promise":
            found = missing_elsewhere(line)
        elif len(cells) != 3 or not cells[1]:
            found = ["a row has a promise, a contract and what it leaves open"]
        else:
            rows += 1
            found = [*missing_in(cells[1]), *missing_elsewhere(cells[0] + " " + cells[2])]
            if cells[0] in promises:
                found.append("this promise stands twice")
            promises.add(cells[0])
        missing.extend(f"{PAGE}:{number}: {what}" for what in found)
    if not rows:
        missing.append(f"{PAGE} has no row")
    print("\n".join(missing), end="\n" if missing else "")
    return 1 if missing else 0


sys.exit(main())
