"""Which definitions a contract rests on, and how many lines these have: of `specs/` the lines of each definition that
is reached, without comments and imports, and of `src/` those of the types that they speak of.

A name counts wherever it stands in a definition, also as that of a variable or a field; so a sum is no less than what
is to be believed. Definitions of the standard library and of the ported crates are left out."""
import functools
import glob
import itertools
import os
import re
import sys

from running import TOP, decoded, read, rows

IMPORT = re.compile(r"^(pub |ghost )?use Rattle\.(\w+)\.specs\.([\w.'-]+?)(?:\.\{([^}]*)\}| as (\w+))?;?$", re.M)
ITEM = re.compile(r"^( *)(?:abbrev|unfoldable|pub record|pub data|record|data) (?:pub )?([^\s:]+)", re.M)
MODULE = re.compile(r"^module _ .*\n", re.M)
CONSTRUCTORS = re.compile(r"^(?:  ){1,2}([^\s:(){}→][^:(){}→\n]*?) :", re.M)
COMMENT = re.compile(r"(?:^|(?<=\s))--(?:\s.*)?$", re.M)
WORD = re.compile(r"[^\s(){};,λ→×↔]+")
TYPE = r"^(?:pub(?:\(\w+\))? )?(?:struct|enum|type) {}\b(?:.*[;}}]$|.*\n(?:[^}}\n].*\n|\n)*\}})"
USE = r"^use (crate|fs_\w+)::(?:\w+::)*(?:\{{[^}}]*\b{}\b[^}}]*\}}|{});"
HEADER = re.compile(r'(?:#![^\n]*\n)?(?:"""(.*?)(?:\n\n|""")|/\*(.*?)\*/|((?:(?:#(?!!)|//!|--)[^\n]*\n)+))', re.S)
PLAIN_TYPES = {"Option", "Box", "Vec", "String", "List", "Self", "Arc"}


@functools.cache
def text_of(file):
    """The text of a file by its path in the repository; none where there is no such file."""
    return decoded(read(f"{TOP}/{file}")) if os.path.isfile(f"{TOP}/{file}") else ""


@functools.cache
def files(pattern):
    """The files of this pattern, by their paths in the repository."""
    return sorted(it for it in glob.glob(pattern, root_dir=TOP, recursive=True) if os.path.isfile(f"{TOP}/{it}"))


def header(file):
    """What a file says first, in its `//!` text, its docstring or its first comment: a sentence, or two short ones."""
    found = HEADER.match(text_of(file))
    text = re.sub(r"^(?://!|--| ?[#*])", "", next(filter(None, found.groups())) if found else "", flags=re.M)
    sentences = re.split(r"(?<=[.?!])\s+(?=[A-Z`])", " ".join(text.split()))
    return " ".join(sentences[:2 if len(sentences[0].split()) < 8 else 1]).removesuffix(".").replace("|", "\\|")


def listed(group):
    """What scripts/transcripts/contracts.table has in a group: by their names parts of lines."""
    found = {}
    for name, *parts in (row.split(" | ") for row in rows("contracts", group)):
        found.setdefault(name, []).append(parts)
    return found


CONTRACTS, PROGRAMS, ANSWERS = map(listed, ["contracts", "programs", "answers"])
MEANINGS = {**PROGRAMS, **ANSWERS}


@functools.cache
def imports_of(file):
    """The names that a file imports, each with crate, module and name there, and its names for modules."""
    names, modules, handed_on = {}, {}, set()
    for kind, crate, path, listed, alias in IMPORT.findall(text_of(file)):
        if alias:
            modules[alias] = (crate, path)
        for it in filter(None, re.split(r",\s*", listed)):
            there, _, here = it.partition(" as ")
            names[here or there] = (crate, path, there)
            handed_on.update([here or there] if kind == "pub " else [])
    return names, modules, handed_on


@functools.cache
def items_of(file):
    """Under which definition of a file each name stands, such as a constructor's; and the lines of each definition."""
    owners, lines, module, text = {}, {}, "", IMPORT.sub("", text_of(file))
    for part in COMMENT.sub("", text).replace("\n\n\n", "\n\n").split("\n\n"):
        found = MODULE.search(part)
        module = found[0].strip() if found else module
        starts = list(ITEM.finditer(part))
        for number, item in enumerate(starts):
            end = starts[number + 1].start() if number + 1 < len(starts) else len(part)
            body = [it for it in part[item.start():end].split("\n") if it.strip()]
            lines[item[2]] = [module, *body] if item[1] and module else body
            owners[item[2]] = item[2]
            if " data " in f" {item[0]}":
                for constructors in CONSTRUCTORS.findall("\n".join(body)):
                    owners.update((it, item[2]) for it in constructors.split())
    return owners, lines


def node_of(crate, path, name):
    """What a name of a module stands for: `(file, name)` of a definition or a type, or None of what isn't counted."""
    if not os.path.isdir(f"{TOP}/crates/{crate}"):
        return None
    if path.startswith("declared."):
        module, _, owner = path.removeprefix("declared.").removesuffix(".TheVariants").rpartition(".")
        return f"crates/{crate}/src/{module.replace('.', '/')}.rt", owner
    file = f"crates/{crate}/specs/{path.replace('.', '/')}.antt"
    owners, _ = items_of(file)
    if name in owners:
        return file, owners[name]
    names, _, handed_on = imports_of(file)
    return node_of(*names[name]) if name in handed_on else None


@functools.cache
def type_lines(file, name):
    """The lines of a type of the code, without comments and attributes."""
    found = re.search(TYPE.format(re.escape(name)), text_of(file), re.M)
    lines = found[0].split("\n") if found else []
    return [it for it in lines if it.strip() and not re.match(r"\s*(?://|#\[)", it)]


def named_in(file, text):
    """What the names of a text mean that stands in this file."""
    names, modules, _ = imports_of(file)
    owners, _ = items_of(file) if file.endswith(".antt") else ({}, {})
    for word in set(WORD.findall(re.sub(r'"[^"]*"', "", text))):
        first, _, second = word.partition(".")
        if first in modules:
            yield node_of(*modules[first], second)
        elif first in owners:
            yield file, owners[first]
        elif first in names:
            yield node_of(*names[first])


@functools.cache
def rests_on(node):
    """What a definition names, or a type by its fields."""
    file, name = node
    if not file.endswith(".rt"):
        return set(filter(None, named_in(file, "\n".join(items_of(file)[1][name]))))
    lines, crate, found = type_lines(file, name), file.split("/")[1], set()
    for other in set(re.findall(r"\b[A-Z]\w*\b", "\n".join(lines[1:] or lines))) - PLAIN_TYPES:
        used = re.search(USE.format(other, other), text_of(file), re.M)
        there = files(f"crates/{crate if used[1] == 'crate' else used[1]}/src/*.rt") if used else [file]
        found.update((it, other) for it in there if type_lines(it, other))
    return found


def needed_by(*names):
    """All definitions and types that the contracts of these names rest on, or the definitions in `MEANINGS`."""
    found = {it[0]: {node_of(*it[0].split())} for name in names for it in MEANINGS.get(name, [])}
    # a file below crates/, and the first function of this name there
    for words, in itertools.chain(*[CONTRACTS.get(name, []) for name in names]):
        file, function = f"crates/{words}".split()
        contract = re.search(rf"^( *)(?:pub )?fn {function}\b(?:.*\n)+?\1\{{(?:\}}| |$)", text_of(file), re.M)
        found[words] = set(named_in(file, contract[0])) if contract else set()
    nodes = [found[it] - {None} or sys.exit(f"definitions: there is no {it}, or it has no contract") for it in found]
    reached, more = set(), set().union(*nodes)
    while more:
        reached |= more
        more = set().union(*map(rests_on, more)) - reached
    return reached


def size_of(nodes):
    """How many lines definitions and types have."""
    return sum(len(type_lines(*it) if it[0].endswith(".rt") else items_of(it[0])[1][it[1]]) for it in nodes)


def lines_by_file(nodes):
    """For each file, how many lines the definitions or types in it have that are among these."""
    return {file: size_of(here) for file, here in itertools.groupby(sorted(nodes), key=lambda node: node[0])}
