"""The clauses of the crates, and the tables of the documents."""

import functools
import os
import re

from documents import ROOT


def texts(folder, suffix):
    for place, _, names in os.walk(folder):
        for name in names:
            if name.endswith(suffix) and "/out" not in place:
                with open(f"{place}/{name}", encoding="utf-8") as file:
                    yield file.read()


class Crate:
    """The functions of a crate with their clauses."""

    def __init__(self, name):
        # By the name of a function: whether it is public, the type that it belongs to, its clauses.
        self.functions, self.aliases = {}, {}
        for text in texts(f"{ROOT}/crates/{name}/src", ".rt"):
            self.read(text)

    def read(self, text):
        owner, is_trait, indent = None, False, 0
        lines = text.split("\n")
        for at, line in enumerate(lines):
            header = re.match(
                r"( *)(pub(?:\([a-z]+\))? )?(?:unsafe )?(impl|trait)\b(?:<.*?>)? ?(.*?) *(?:where.*)?[{;]?$", line
            )
            if header and "fn " not in line:
                words = re.sub(r"<[^<>]*(?:<[^<>]*>[^<>]*)*>", "", header[4])
                owner = words.split(" for ")[-1].split(":")[0].split("(")[0].strip().lstrip("&").split()[-1:]
                owner, is_trait, indent = (owner or [""])[0], header[3] == "trait", len(header[1])
            elif line[: indent + 1] == " " * indent + "}":
                owner, is_trait = None, False
            self.aliases.update(re.findall(r"\btype (\w+)(?:<.*?>)? = (\w+)", line))
            found = re.match(
                r' *((?:pub(?:\([a-z]+\))? )?)(?:const )?(?:unsafe )?(?:extern "C" )?fn (\w+)', line
            )
            if found:
                is_of_trait = owner is not None and not found[1] and self.is_of_trait(lines, at)
                is_public = found[1] == "pub " or is_trait or is_of_trait
                self.functions.setdefault(found[2], []).append((is_public, owner, self.clauses(lines, at)))

    @staticmethod
    def clauses(lines, at):
        """The names of the clauses of the function at a line."""
        contract = []
        for follows in lines[at + 1 :]:
            if re.match(r" *(\{ *$|\} *$|(pub )?fn |///)", follows):
                break
            contract.append(follows)
            if follows.endswith("};"):
                break
        return set(re.findall(r"\bensures\*? (\w+) \{", "\n".join(contract)))

    @staticmethod
    def is_of_trait(lines, at):
        """Whether the function at a line stands in an `impl Trait for Type`."""
        for line in reversed(lines[:at]):
            if re.match(r" *(?:unsafe )?impl\b", line):
                return " for " in line
        return False

    def find(self, name):
        """The functions of a name, `function` or `Type::function`."""
        owner, _, function = name.rpartition("::")
        owner = self.aliases.get(owner, owner)
        return [it for it in self.functions.get(function, []) if not owner or it[1] == owner]


@functools.cache
def crate_of(name):
    return Crate(name)


def names_in(text):
    return re.findall(r"`([^`]+)`", text)


def rows_of(text, heading):
    """The cells of each row of the tables below a heading, without the heads."""
    section = re.search(rf"(?ms)^##+ {heading}$(.*?)(?=^##+ |\Z)", text)[1]
    rows = re.findall(r"(?m)^\| (.*) \|$(?!\n\|-)", section)
    return [[cell.strip() for cell in row.split(" | ")] for row in rows]
