#!/usr/bin/env python3
"""Checks that all that docs/PROMISES.md names is there, and so are the paths and headings that the other pages name.

Run at the top of the repository: python3 bench/promises.py
It prints a line for each miss, with its page and line, and last how many things were named and how many of them are
missing. It ends with 1 where one is.

A promise is a heading `### ..` with four items: `- call:`, `- definition:`, `- edits:` and `- tests:`. An item goes on over
lines that are indented. What it names stands in backticks:

- a call is FILE::FUNCTION, or FILE::TYPE::FUNCTION for a method. It is public, and the root of its library hands it on. Where it has a `requires` with a name, `asks`
  and all these names stand behind it. Then stand `clauses` and their names, or `its one clause`, which is a single `ensures`
  without a name.
- a definition is FILE::NAME, or FILE::RECORD.FIELD. Behind a record may stand `fields` and their names. In a file of code
  it is a trait, whose fields are its ghost members.
- an edit is a file of a crate's must-fail folder. Each edit of each crate has to be named.
- a test is FILE::FUNCTION, below the line `#[test]`.

A semicolon ends the clauses or fields of what stands in front of it. A name without a file is in the file, the type or the
folder of the name before it. An item that begins with `none` names nothing.

In all pages a path in backticks that begins with a folder of the repository has to be there, where `*`, `NAME`, `CRATE` and
`File` stand for any name. A link to a heading has to lead to one, and a label of a link has to have one.
"""
import functools
import glob
import os
import re
import sys

PROMISES = "docs/PROMISES.md"
PAGES = ["README.md", "CONTRIBUTING.md", *sorted(glob.glob("docs/*.md"))]
ITEM = re.compile(r"^- (call|definition|edits|tests): (.*(?:\n  .*)*)", re.M)
BEHIND = re.compile(r"\b(?:clauses?|fields?)\b")
ASKS = re.compile(r"\basks?\b")
QUOTED = re.compile(r"`([^`\n]+)`")
PATH = re.compile(r"`((?:crates|docs|bench|examples)/[^`\s]*)`")
LINK = re.compile(r"(?:\]\(|^\[[^\]]+\]: )([^)\s#]*)#([^)\s]+)", re.M)
LABEL = re.compile(r"\]\[([^\]]+)\]")
LABELLED = re.compile(r"^\[([^\]]+)\]: ", re.M)
CODE = re.compile(r"```.*?```|`[^`\n]*`", re.S)
HEADING = re.compile(r"^#+ (.*)$", re.M)
PROMISE = re.compile(r"^### .*\n((?:[^#\n].*\n|\n)*)", re.M)
FUNCTION = r"\s*(?:pub(?:\([^)]*\))? )?(?:const )?fn {}\b"
USES = re.compile(r"^pub use [^;]*;", re.M)
TYPES = re.compile(r"\b(?:impl(?:<.*?>)?|trait|for)\s+(\w+)")
DEFINED = r"^ *(?:abbrev |unfoldable |pub |record |data )+{}\b"


class Report:
    """How many things were looked for, and how many of them aren't there."""

    def __init__(self):
        self.named = 0
        self.missing = 0

    def look(self, place, what, is_there):
        self.named += 1
        if not is_there:
            self.missing += 1
            print(f"{place}: {what}")


@functools.lru_cache(maxsize=None)
def text_of(path):
    """The text of a file, empty where there is none."""
    if not os.path.isfile(path):
        return ""
    with open(path, encoding="utf-8") as file:
        return file.read()


@functools.lru_cache(maxsize=None)
def lines_of(path):
    return text_of(path).splitlines()


def line_at(text, place):
    return text.count("\n", 0, place) + 1


# ---- functions


def indent_of(line):
    return line[: len(line) - len(line.lstrip())]


def header(lines, at):
    """A function from its name to its body, or to its end where it has none."""
    indent, taken = indent_of(lines[at]), []
    for line in lines[at:]:
        if line in (indent + "{", indent + "{}"):
            break
        taken.append(line)
        text = "\n".join(taken)
        opens_body = line.endswith(("{", "{}")) and (len(taken) == 1 or line.startswith(indent + ")"))
        if opens_body or (line.endswith(";") and text.count("{") == text.count("}")):
            break
    return "\n".join(taken)


def block_of(lines, at):
    """The line of the impl or the trait that a function stands in, empty where it stands in none."""
    if not indent_of(lines[at]):
        return ""
    above = [line for line in lines[:at] if re.match(r"(?:unsafe )?(?:pub )?(?:impl|trait)\b", line)]
    return above[-1] if above else ""


def functions(name):
    """The places of the functions with this name, FILE::FUNCTION or FILE::TYPE::FUNCTION."""
    path, *types = name.split("::")
    function = types.pop() if types else ""
    lines = lines_of(path)
    found = [at for at, line in enumerate(lines) if re.match(FUNCTION.format(re.escape(function)), line)]
    return [at for at in found if not types or types == TYPES.findall(block_of(lines, at))[-1:]]


def is_exported(path, name):
    """Whether the root of a library hands a name on to other crates. A program has no other crate above it."""
    root = re.sub(r"/src/.*", "/src/lib.rt", path)
    return not os.path.isfile(root) or root == path or any(re.search(rf"\b{name}\b", use) for use in USES.findall(text_of(root)))


def is_public(path, at):
    """Whether callers in other crates reach a function: one that says so, or one of a trait, where the root hands it or its type on."""
    lines = lines_of(path)
    block = block_of(lines, at)
    is_of_trait = bool(re.search(r"\btrait\b", block)) or bool(re.search(r"^impl.*\bfor\b", block))
    name = TYPES.findall(block)[-1] if block else re.search(r"fn (\w+)", lines[at]).group(1)
    return (bool(re.match(r"\s*pub (?:const )?fn", lines[at])) or is_of_trait) and is_exported(path, name)


def is_test(lines, at):
    return at > 0 and lines[at - 1].strip() == "#[test]"


def has_clause(text, clause):
    return bool(re.search(rf"^\s*ensures {re.escape(clause)} \{{", text, re.M))


def asked_in(text):
    """The names of what a function asks for, in order."""
    return re.findall(r"^\s*requires (\w+) \{", text, re.M)


def has_one_clause(text):
    return len(re.findall(r"^\s*ensures\b", text, re.M)) == 1 and bool(re.search(r"^\s*ensures \{", text, re.M))


# ---- definitions


def definition_at(path, name):
    """The line of a definition, or in a file of code of a trait; none where it isn't there."""
    pattern = rf"^pub trait {name}\b" if path.endswith(".rt") else DEFINED.format(re.escape(name))
    return next((at for at, line in enumerate(lines_of(path)) if re.match(pattern, line)), None)


def has_field(path, name, field):
    """Whether a record has a field, or a trait a ghost member."""
    at = definition_at(path, name)
    if at is None:
        return False
    lines = lines_of(path)
    indent, word = indent_of(lines[at]), "ghost" if path.endswith(".rt") else "(?:pub )?"
    for line in lines[at + 1 :]:
        if line.strip() and not line.startswith(indent + " "):
            return False
        if re.match(rf"\s+{word}\s*{re.escape(field)} ?:", line):
            return True
    return False


# ---- the items of a promise


def in_full(name, before):
    """A name with its file, that of the name before it where it has none of its own."""
    if "/" in name:
        return name
    if name.endswith(".edit"):
        return f"{os.path.dirname(before)}/{name}"
    if "::" in name:
        return f"{before.split('::')[0]}::{name}"
    return f"{before.rpartition('::')[0]}::{name}"


def groups(body, line):
    """What an item names, group by group: names in full, the names behind `clauses` or `fields`, and the group's text."""
    before = ""
    for group in body.split(";"):
        split = BEHIND.search(group)
        head, tail = (group[: split.start()], group[split.end() :]) if split else (group, "")
        head, names = ASKS.split(head)[0], []
        for found in QUOTED.finditer(head):
            before = in_full(found.group(1), before)
            names.append((before, line + line_at(head, found.start()) - 1))
        yield names, QUOTED.findall(tail), group
        line += group.count("\n")


def look_at_call(report, place, name, clauses, group):
    found = functions(name)
    report.look(place, f"no function {name}, or several", len(found) == 1)
    if len(found) != 1:
        return
    lines = lines_of(name.split("::")[0])
    text = header(lines, found[0])
    report.look(place, f"{name} isn't public", is_public(name.split("::")[0], found[0]))
    told = QUOTED.findall("".join(ASKS.split(BEHIND.split(group)[0])[1:]))
    report.look(place, f"{name} asks for {', '.join(asked_in(text)) or 'nothing with a name'}", told == asked_in(text))
    for clause in clauses:
        report.look(place, f"{name} has no clause {clause}", has_clause(text, clause))
    if not clauses:
        one = "one clause" in " ".join(group.split()) and has_one_clause(text)
        report.look(place, f"{name}: names no clause, or hasn't one alone", one)


def look_at_definition(report, place, name, fields, _group):
    path, _, defined = name.partition("::")
    record, _, field = defined.partition(".")
    report.look(place, f"no definition {name}", definition_at(path, record) is not None)
    for each in [*fields, *([field] if field else [])]:
        report.look(place, f"{path}: {record} has no field {each}", has_field(path, record, each))


def look_at_edit(report, place, name, _names, _group):
    report.look(place, f"no edit {name}", name.endswith(".edit") and os.path.isfile(name))


def look_at_test(report, place, name, _names, _group):
    found = functions(name)
    lines = lines_of(name.split("::")[0])
    report.look(place, f"no test {name}", len(found) == 1 and is_test(lines, found[0]))


LOOKS = {"call": look_at_call, "definition": look_at_definition, "edits": look_at_edit, "tests": look_at_test}


def look_at_items(report):
    """Looks for all that the items name, and gives the names of the edits."""
    text, edits = text_of(PROMISES), set()
    for item in ITEM.finditer(text):
        kind, body = item.groups()
        if body.startswith("none"):
            continue
        for names, behind, group in groups(body, line_at(text, item.start())):
            for name, line in names:
                LOOKS[kind](report, f"{PROMISES}:{line}", name, behind, group)
                edits.update([name] if kind == "edits" else [])
    return edits


def look_at_promises(report):
    """Looks whether each promise has its items."""
    text = text_of(PROMISES)
    for promise in PROMISE.finditer(text):
        place = f"{PROMISES}:{line_at(text, promise.start())}"
        kinds = [item.group(1) for item in ITEM.finditer(promise.group(1))]
        report.look(place, f"not one item each of {', '.join(LOOKS)}", kinds == list(LOOKS))


def look_at_edits(report, named):
    for edit in sorted(glob.glob("crates/*/must-fail/*.edit")):
        report.look(PROMISES, f"no promise names {edit}", edit in named)


# ---- the pages


def slug(heading):
    """The anchor of a heading, as it is made where pages are shown."""
    return re.sub(r"[^\w\- ]", "", heading.strip().lower()).replace(" ", "-")


@functools.lru_cache(maxsize=None)
def anchors(path):
    """The anchors of a page: of equal ones the later have a number."""
    found, seen = set(), {}
    for heading in HEADING.findall(text_of(path)):
        anchor = slug(heading)
        count = seen.get(anchor, 0)
        seen[anchor] = count + 1
        found.add(f"{anchor}-{count}" if count else anchor)
    return found


def look_at_paths(report, page):
    text = text_of(page)
    for found in PATH.finditer(text):
        path = re.sub(r"\b(?:NAME|CRATE|File)\b", "*", found.group(1).split("::")[0])
        report.look(f"{page}:{line_at(text, found.start())}", f"no path {path}", bool(glob.glob(path)))


def without_code(text):
    """A page's text with blanks in place of its code."""
    return CODE.sub(lambda code: re.sub(r"[^\n]", " ", code.group()), text)


def look_at_labels(report, page):
    text = without_code(text_of(page))
    labelled = LABELLED.findall(text)
    for found in LABEL.finditer(text):
        label = found.group(1)
        report.look(f"{page}:{line_at(text, found.start())}", f"no link has the label {label}", label in labelled)


def look_at_links(report, page):
    text = without_code(text_of(page))
    for found in LINK.finditer(text):
        target, anchor = found.groups()
        if ":" in target:
            continue
        path = os.path.normpath(os.path.join(os.path.dirname(page), target)) if target else page
        place = f"{page}:{line_at(text, found.start())}"
        report.look(place, f"no heading {anchor} in {path}", anchor in anchors(path))


def main():
    report = Report()
    look_at_promises(report)
    look_at_edits(report, look_at_items(report))
    for page in PAGES:
        look_at_paths(report, page)
        look_at_labels(report, page)
        look_at_links(report, page)
    print(f"{report.named} named, {report.missing} missing")
    return 1 if report.missing else 0


if __name__ == "__main__":
    sys.exit(main())
