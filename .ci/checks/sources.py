"""Checks of the sources: names, arms, clauses and wrong bodies. What is still to be changed stands in a list beside them."""

import re

WIDTH = 100


def unlisted(repository, found, name, fault):
    """Faults that the list doesn't have, and entries of the list that aren't needed any more."""
    listed = repository.entries(name)
    faults = [f"{entry}: {fault}" for entry in sorted(found) if entry not in listed]
    stale = [f"{entry}: take it out of .ci/lists/{name}, it isn't needed any more" for entry in listed if entry not in found]
    return faults + stale


def shared_names(repository):
    """Each definition and each type has a name that no other crate defines."""
    owners = {}
    for crate in repository.crates.values():
        for name in crate.defined_names:
            owners.setdefault(name, set()).add(crate.name)
    found = {f"{name}: {' '.join(sorted(crates))}" for name, crates in owners.items() if len(crates) > 1}
    return unlisted(repository, found, "shared-names", "a name in two crates or more")


# Catch-all arms


def blanked(text):
    """The text with comments, strings and characters as blanks, so that braces and arrows are code."""
    pattern = r'//[^\n]*|b?r(#*)".*?"\1|b?"(?:\\.|[^"\\])*"|b?\'(?:\\.[^\']*|[^\'\\])\''
    return re.sub(pattern, lambda found: re.sub(r"[^\n]", " ", found.group()), text, flags=re.DOTALL)


def end_of(text, start):
    """Where the bracket that opens at a place is closed."""
    depth = 0
    for place in range(start, len(text)):
        depth += (text[place] in "([{") - (text[place] in ")]}")
        if depth == 0:
            return place
    return len(text)


def place_of(text, wanted, start, end):
    """Where a text stands first outside all brackets, or the end."""
    place = start
    while place < end:
        if text.startswith(wanted, place):
            return place
        place = end_of(text, place) + 1 if text[place] in "([{" else place + 1
    return end


def patterns_of(text, start, end):
    """The patterns of the arms between two places, with their guards."""
    patterns, place = [], start
    while (arrow := place_of(text, "=>", place, end)) < end:
        patterns.append(" ".join(text[place:arrow].split()))
        body = arrow + 2 + len(text[arrow + 2 : end]) - len(text[arrow + 2 : end].lstrip())
        if text.startswith("{", body):
            place = end_of(text, body) + 1
            place += len(text[place:end]) - len(text[place:end].lstrip(" \n,"))
        else:
            place = place_of(text, ",", body, end) + 1
    return patterns


def matches_of(source):
    """Each `match` of a source: what is matched, and the patterns of its arms."""
    text = blanked(source)
    for found in re.finditer(r"\bmatch\b", text):
        start = place_of(text, "{", found.end(), len(text))
        if start < len(text):
            matched = " ".join(source[found.end() : start].split())
            yield matched, patterns_of(text, start + 1, end_of(text, start))


def catches_all(pattern):
    """The wrapper around a catch-all, as `Some` of `Some(_)`; none where it is a catch-all for itself."""
    found = re.fullmatch(r"(?:(\w+)\()?(?:_|[a-z]\w*)\)?", pattern)
    return None if found is None or pattern in ("true", "false") else found.group(1) or ""


def hides_variants(patterns, enums):
    """Whether a catch-all stands for variants of an own enum that another arm names."""
    for pattern in patterns:
        wrapper = catches_all(pattern)
        if wrapper is None:
            continue
        others = [other for other in patterns if other is not pattern and other.startswith(wrapper)]
        if any(name in enums or name == "Self" for other in others for name in re.findall(r"\b([A-Z]\w*)::[A-Z]", other)):
            return True
    return False


def tests_of_variants(source):
    """Each `matches!` of a source, but of tests, which want one variant: what is matched, and the pattern."""
    text = "" if "#[test]" in source else blanked(source)
    for found in re.finditer(r"\bmatches!\(", text):
        end = end_of(text, found.end() - 1)
        comma = place_of(text, ",", found.end(), end)
        yield " ".join(source[found.end() : comma].split()), " ".join(text[comma + 1 : end].split())


def catch_all_arms(repository):
    """No arm stands for all other variants of an enum of our own: a new variant has to be decided."""
    found = set()
    for crate in repository.crates.values():
        for path, source in crate.sources.items():
            for matched, patterns in matches_of(source):
                if hides_variants(patterns, repository.enums):
                    found.add(f"crates/{crate.name}/{path} match {matched}")
            for matched, pattern in tests_of_variants(source):
                if hides_variants([pattern, "_"], repository.enums):
                    found.add(f"crates/{crate.name}/{path} matches! {matched}")
    return unlisted(repository, found, "catch-all-arms", "has an arm for all other variants")


# Widths


def has_wide_clause(source):
    """Whether a clause of a contract has a line over the width."""
    depth = 0
    for line in source.split("\n"):
        if depth == 0 and not re.match(r"\s*(requires|ensures)\b.*\{", line):
            continue
        if len(line) > WIDTH:
            return True
        depth = max(0, depth + line.count("{") - line.count("}"))
    return False


def wide_clauses(repository):
    """No clause has a line of more than 100 columns."""
    found = {
        f"crates/{crate.name}/{path}"
        for crate in repository.crates.values()
        for path, source in crate.sources.items()
        if has_wide_clause(source)
    }
    return unlisted(repository, found, "wide-clauses", f"has a clause over {WIDTH} columns")


# Wrong bodies

TOLD = re.compile(r"# Told by (\w+)::(\w+)::(\w+)(?:, row ([\w-]+))?\.")


def test_fault(repository, line):
    """Why a line names no test of the repository, and no row of it; none if it does."""
    found = TOLD.fullmatch(line)
    if not found:
        return "doesn't begin with the test that tells of it"
    crate, module, test, row = found.groups()
    sources = repository.crates[crate].sources if crate in repository.crates else {}
    if f"fn {test}(" not in sources.get(f"src/{module}.rt", ""):
        return f"there is no test {crate}::{module}::{test}"
    harnesses = [repository.crates[name] for name in ("harness_conversations", "harness_refusals")]
    tables = [*sources.values(), *(text for harness in harnesses for text in harness.sources.values())]
    if row and not any(f"= {row}\n" in text or f'("{row}", ' in text for text in tables):
        return f"there is no row {row}"
    return None


def place_fault(crate, path, old):
    """Why a text can't be exchanged in a file; none if it stands there once."""
    count = crate.read(path).get(path, "").count(old)
    return None if count == 1 else f"its old text stands {count} times in {path}"


def wrong_body_faults(repository, crate, text):
    """Why a wrong body can't be made any more, or isn't told by a test."""
    lines = text.rstrip("\n").split("\n")
    values = [line.split(": ", 1) for line in lines[1:]]
    if [value[0] for value in values] != ["file", "old", "new"] * (len(values) // 3) or not values:
        return ["isn't lines of a file, an old text and a new one"]
    places = [place_fault(crate, values[at][1], values[at + 1][1]) for at in range(0, len(values), 3)]
    return [fault for fault in [test_fault(repository, lines[0]), *places] if fault]


def wrong_bodies(repository):
    """Each wrong body that the gate leaves to a test can be made, and names that test."""
    return [
        f"crates/{crate.name}/{path}: {fault}"
        for crate in repository.crates.values()
        for path, text in crate.read("must-fail/*.md").items()
        for fault in wrong_body_faults(repository, crate, text)
    ]
