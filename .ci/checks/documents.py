"""Checks of the documents: what they name is there, and how they say it."""

import os
import re
from dataclasses import dataclass

FENCE = re.compile(r"^```.*?^```[^\S\n]*$", re.DOTALL | re.MULTILINE)
CODE = re.compile(r"`([^`\n]+)`")
# a name that stands for any: `CRATE::FUNCTION`, `crates/NAME/specs`
PLACEHOLDER = re.compile(r"[A-Z][A-Z_]+\b(?!\.md)")
FOLDERS = ("crates", "docs", "examples", "model", "bench", "front", ".ci")
OUTSIDE = ("std", "core")
# words of ours that strangers don't know, and paths that they don't have
WORDS = [
    "want of memory", "what is told", "comes? to", "came to", "mend(?:s|ed)?", "doors?", "in vain", "let go", "lets go", "of which",
    r"\.\./shared", r"/work\b", r"/opt\b", r"/home\b", r"/root\b", r"registry\.", "crates\\.io", "pypi", "npmjs",
]


def without_blocks(text):
    """The text with its fenced blocks as empty lines."""
    return FENCE.sub(lambda found: "\n" * found.group().count("\n"), text)


def numbered_lines(text):
    return enumerate(without_blocks(text).split("\n"), 1)


# Names


def resolve(repository, token):
    """Why a name such as `crate::module::function.clause` or `Type::method` names nothing; none if it does."""
    path, _, clause = token.partition(".")
    first, *rest = path.split("::")
    crate = repository.crates.get(first)
    if crate is None and first[0].islower():
        return None if first in OUTSIDE or is_library(repository, first) else "names no crate"
    crates = [crate] if crate else list(repository.crates.values())
    name = "::".join(rest) if crate else path
    functions = [function for each in crates for function in each.named(name)]
    if clause:
        return None if any(clause in function.clauses for function in functions) else "names no clause of a function"
    if functions or any(has_item(each, name) for each in crates):
        return None
    return "names no function or type"


def is_library(repository, name):
    """Whether some crate stands on a library of this name."""
    return any(name in dependencies for dependencies in repository.listed.values())


def has_item(crate, name):
    """Whether a crate has a type, a constant, a module or an enum's variant of this name."""
    *owners, last = name.split("::")
    if owners and owners[-1][0].isupper():
        bodies = [text.split(f"enum {owners[-1]} ", 1)[1] for text in crate.sources.values() if f"enum {owners[-1]} " in text]
        return any(re.search(rf"^    {last}\b", body.split("\n}")[0], re.MULTILINE) for body in bodies)
    is_constant = any(re.search(rf"\b(?:const|static) {last}\b", text) for text in crate.sources.values())
    return last in crate.types or is_constant or f"src/{last}.rt" in crate.sources


def fault_of_code(repository, token):
    """Why a piece of code in a document names what isn't there; none if it does, or names nothing of ours."""
    if PLACEHOLDER.match(token.split("/")[-1]) or PLACEHOLDER.match(token) or "/NAME" in token:
        return None
    if re.fullmatch(r"[\w.-]+(/[\w.-]*)+", token) and token.split("/")[0] in FOLDERS:
        return None if os.path.exists(f"{repository.top}/{token}") else "is no file"
    if re.fullmatch(r"\w+(::[A-Za-z_]\w*)+(\.\w+)?", token):
        return resolve(repository, token)
    return None


def names(repository):
    """Crates, functions, clauses and files that the documents name exist."""
    faults = []
    for page, text in repository.documents.items():
        for number, line in numbered_lines(text):
            for token in CODE.findall(line):
                fault = fault_of_code(repository, token)
                if fault:
                    faults.append(f"{page}:{number}: `{token}` {fault}")
    return faults


# Links


def anchors_of(text):
    """The anchors of a page's headings."""
    headings = re.findall(r"^#+ (.*)$", without_blocks(text), re.MULTILINE)
    return {re.sub(r"[^\w\- ]", "", heading.lower()).replace(" ", "-") for heading in headings}


def links(repository):
    """Each link to a file of the repository leads to one, and to a heading that it has."""
    faults = []
    for page, text in repository.documents.items():
        for number, line in numbered_lines(text):
            for target in re.findall(r"\]\(([^)\s]+)\)", line):
                if re.match(r"https?:|mailto:", target):
                    continue
                path, _, anchor = target.partition("#")
                file = os.path.normpath(os.path.join(os.path.dirname(page), path)) if path else page
                if not os.path.exists(f"{repository.top}/{file}"):
                    faults.append(f"{page}:{number}: {target} leads to no file")
                elif anchor and anchor not in anchors_of(repository.read(file)):
                    faults.append(f"{page}:{number}: {target} leads to no heading")
    return faults


# Tables


@dataclass
class Row:
    page: str
    number: int
    cells: list

    def at(self, fault):
        return f"{self.page}:{self.number}: {fault}"


def rows_of(repository, page, heading):
    """The rows of a page's tables that begin with these columns."""
    rows, is_inside = [], False
    for number, line in numbered_lines(repository.documents.get(page, "")):
        cells = [cell.strip() for cell in line.strip().strip("|").split("|")] if line.startswith("|") else []
        if not cells:
            is_inside = False
        elif cells == heading:
            is_inside = True
        elif is_inside and set(line) - set("|-: "):
            rows.append(Row(page, number, cells))
    return rows


def fault_of_proof(repository, row):
    """What is wrong with a row of PROOFS: its one public function has its clauses, and its definitions are there."""
    if len(row.cells) != 4:
        return row.at("a row has four cells")
    _, crates, functions, clauses = row.cells
    named, called = CODE.findall(crates), CODE.findall(functions)
    if len(named) != 1 or named[0] not in repository.crates:
        return row.at(f"{crates} is not one crate")
    found = repository.crates[named[0]].named(called[0]) if len(called) == 1 else []
    if not any(function.is_public for function in found):
        return row.at(f"{functions} is not one public function of `{named[0]}`")
    stated, _, definitions = clauses.partition("(")
    wanted, has = CODE.findall(stated), {clause for function in found for clause in function.clauses}
    if not wanted or not has.issuperset(wanted):
        return row.at(f"{functions} has the clauses {', '.join(sorted(has))}, and not {stated}")
    known = {name for crate in repository.crates.values() for name in crate.definitions}
    unknown = [name for name in CODE.findall(definitions) if name not in known]
    return row.at(f"no definition is called {', '.join(unknown)}") if unknown else None


def proofs(repository):
    """Each row of PROOFS names one public function and clauses that it has."""
    rows = rows_of(repository, "docs/PROOFS.md", ["Claim", "Crate", "Function", "Clause"])
    faults = [fault_of_proof(repository, row) for row in rows]
    return [fault for fault in faults if fault] or ([] if rows else ["docs/PROOFS.md: there are no rows"])


def rules_of(crate, cell):
    """The rules that a row of ARCHITECTURE names and the crate doesn't have."""
    names = [name for name in CODE.findall(re.sub(r"\[[^]]*\]\([^)]*\)", "", cell)) if name]
    return [name for name in names if name not in crate.definitions and name not in crate.sources and "::" not in name]


def architecture(repository):
    """ARCHITECTURE has each crate once, with definitions that it has; so has crates.txt."""
    rows = rows_of(repository, "docs/ARCHITECTURE.md", ["Crate", "What it holds", "Where its rules are stated"])
    faults, seen = [], []
    for row in rows:
        name = CODE.findall(row.cells[0])[0] if CODE.findall(row.cells[0]) else row.cells[0]
        seen.append(name)
        if name not in repository.crates:
            faults.append(row.at(f"there is no crate {name}"))
        elif missing := rules_of(repository.crates[name], row.cells[2]):
            faults.append(row.at(f"{name} has no {', '.join(missing)}"))
    order = list(repository.listed)
    for name, dependencies in repository.listed.items():
        late = [other for other in dependencies if other in order and order.index(other) > order.index(name)]
        if late:
            faults.append(f"crates.txt: {name} stands on {', '.join(late)}, which comes later")
    for name in sorted(set(repository.crates) | set(repository.listed) | set(seen)):
        if seen.count(name) != 1 or name not in repository.listed or name not in repository.crates:
            faults.append(f"{name}: in crates.txt, in crates/ and once in docs/ARCHITECTURE.md, or nowhere")
    return faults


# Paths


def paths(repository):
    """PROTOCOL, the table of paths and the model have the same paths."""
    source = repository.read("crates/path_routes/src/table.rt")
    table = set(re.findall(r'\("(/[^"]*)", Route::', source))
    rows = rows_of(repository, "docs/PROTOCOL.md", ["Path", "Method", "Caller", "Does"])
    told = {path for row in rows for path in CODE.findall(row.cells[0])}
    model = set(re.findall(r'^    \("(/[^"]*)", \{', repository.read("model/front.py"), re.MULTILINE))
    faults = [f"docs/PROTOCOL.md: the table of paths and PATHS differ in {path}" for path in sorted(table ^ told)]
    return faults + [f"model/front.py: ROUTES and PATHS differ in {path}" for path in sorted(table ^ model)]


# Sections


def sections_of(text):
    """Each heading with its depth, and the text up to the next one."""
    parts = re.split(r"^(#+) (.*)$", without_blocks(text), flags=re.MULTILINE)
    return [(len(parts[at]), parts[at + 1], parts[at + 2].strip()) for at in range(1, len(parts), 3)]


def provenance(repository):
    """Each section of PROTOCOL without a smaller one in it ends with where its rule is defined, done and proved."""
    sections, faults = sections_of(repository.documents.get("docs/PROTOCOL.md", "")), []
    for (depth, heading, text), following in zip(sections, [*sections[1:], (0, "", "")]):
        last = text.split("\n\n")[-1].strip()
        if depth > 1 and following[0] <= depth and not re.match(r"Defined in .*done by .*proved by ", last, re.DOTALL):
            faults.append(f"docs/PROTOCOL.md: '{heading}' doesn't end with 'Defined in .., done by .., proved by ..'")
    return faults


# Words


def words(repository):
    """What strangers read has none of the words that only we use, and no path of a machine."""
    faults = []
    for page, text in repository.documents.items():
        for number, line in enumerate(text.split("\n"), 1):
            plain = line if "/" in line and line.startswith("```") else CODE.sub("", line)
            for word in WORDS:
                found = re.search(rf"(?<![\w-]){word}(?!\w)", plain, re.IGNORECASE)
                if found:
                    faults.append(f"{page}:{number}: '{found.group()}' stays out of documents")
    return faults
