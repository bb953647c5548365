"""What stands in the crates: functions with the clauses of their contracts, definitions, types."""

import os
import re
from dataclasses import dataclass, field
from functools import cached_property
from glob import glob

FUNCTION = re.compile(r"(\s*)(pub(?:\([a-z]+\))? )?(?:const )?(?:unsafe )?fn (\w+)")
OWNER = re.compile(r"(?:impl|(?:pub(?:\([a-z]+\))? )?trait)\b(.*)")
CLAUSE = re.compile(r"\b(?:requires|ensures) (\w+) \{")
TYPE = re.compile(r"\s*pub (?:enum|struct|trait|type|union) (\w+)", re.MULTILINE)
DEFINITION = re.compile(r"^(?:abbrev |unfoldable |opaque )*pub (?:record |data )?(?!mod |use )([^\s:({]+)", re.MULTILINE)


@dataclass
class Function:
    """A function: the type or trait whose method it is, if it is one, and the names of its clauses."""

    name: str
    owner: str
    is_public: bool
    clauses: set = field(default_factory=set)


def owner_of(line):
    """The type of an `impl`, or the trait of a `trait`, without its parameters."""
    rest = OWNER.match(line).group(1)
    while re.search(r"<[^<>]*>", rest):
        rest = re.sub(r"<[^<>]*>", "", rest)
    rest = rest.split(" where ")[0].split("{")[0].split(" for ")[-1].split(":")[0]
    return rest.strip().split("::")[-1]


def functions_of(text, is_program=False):
    """The functions of a source file."""
    functions, owner, is_trait, in_contract = [], "", False, False
    for line in text.split("\n"):
        if OWNER.match(line):
            owner, is_trait = owner_of(line), "trait " in line.split("{")[0]
        elif line.startswith("}"):
            owner, is_trait = "", False
        found = FUNCTION.match(line)
        if found:
            # (the methods of a trait are as public as the trait; a program's functions are nobody else's)
            is_public = found.group(2) == "pub " or is_trait or (is_program and found.group(2) is not None)
            functions.append(Function(found.group(3), owner, is_public))
            in_contract = True
        if in_contract:
            functions[-1].clauses.update(CLAUSE.findall(line))
            in_contract = line.strip() not in ("{", "{}") and not line.endswith((";", " {}"))
    return functions


class Crate:
    def __init__(self, folder):
        self.folder, self.name = folder, os.path.basename(folder)

    def read(self, pattern):
        """The texts of the files of a pattern, by their paths in the crate."""
        found = {}
        for path in sorted(glob(f"{self.folder}/{pattern}", recursive=True)):
            with open(path, encoding="utf-8") as file:
                found[os.path.relpath(path, self.folder)] = file.read()
        return found

    @cached_property
    def sources(self):
        return self.read("src/**/*.rt")

    @cached_property
    def definition_files(self):
        return self.read("specs/*.antt")

    @cached_property
    def functions(self):
        is_program = "src/main.rt" in self.sources
        return [function for text in self.sources.values() for function in functions_of(text, is_program)]

    @cached_property
    def types(self):
        return {name for text in self.sources.values() for name in TYPE.findall(text)}

    @cached_property
    def definitions(self):
        """The names of the files in `specs/` and of what they define."""
        files = {os.path.splitext(os.path.basename(path))[0] for path in self.definition_files}
        return files | {name for text in self.definition_files.values() for name in DEFINITION.findall(text)}

    @cached_property
    def defined_names(self):
        """The names that others may use: of definitions and of types."""
        names = {name for text in self.definition_files.values() for name in DEFINITION.findall(text)}
        return names | self.types

    def named(self, path):
        """The functions that `name` or `Type::name` names; a module may stand in the type's place."""
        *owners, name = path.split("::")
        found = [function for function in self.functions if function.name == name]
        if not owners:
            return found
        owner = owners[-1]
        if owner[0].isupper():
            return [function for function in found if function.owner == owner]
        in_module = self.sources.get(f"src/{owner}.rt", "")
        return [function for function in functions_of(in_module) if function.name == name]


class Repository:
    def __init__(self, top):
        self.top = top
        folders = sorted(os.path.dirname(sources) for sources in glob(f"{top}/crates/*/src"))
        self.crates = {os.path.basename(folder): Crate(folder) for folder in folders}

    def read(self, path):
        with open(f"{self.top}/{path}", encoding="utf-8") as file:
            return file.read()

    @cached_property
    def listed(self):
        """The crates of `crates.txt`, each with what it stands on."""
        lines = [line.split("#")[0].strip() for line in self.read("crates.txt").split("\n")]
        pairs = [line.split(":", 1) for line in lines if line]
        return {name.split()[0]: dependencies.split() for name, dependencies in pairs}

    @cached_property
    def documents(self):
        """What people read: each page by its path."""
        paths = [*glob(f"{self.top}/*.md"), *glob(f"{self.top}/docs/*.md")]
        return {path: self.read(path) for path in sorted(os.path.relpath(path, self.top) for path in paths)}

    @cached_property
    def enums(self):
        """The names of our own enums."""
        texts = [text for crate in self.crates.values() for text in crate.sources.values()]
        return {name for text in texts for name in re.findall(r"\benum (\w+)", text)}

    def entries(self, name):
        """The entries of a list beside the checks."""
        lines = [line.strip() for line in self.read(f".ci/lists/{name}").split("\n")]
        return [line for line in lines if line and not line.startswith("#")]
