"""Imports for pieces that are new in a file: names that it lacks, at the end of the list of their module. `rt fmt` sorts those of code."""
import os
import re

from structs import read
from terms import VIEWS


def declared(folder, module):
    """The trees and lemmas that a module of specifications or proofs declares by a pattern."""
    names = re.findall(r"^(?:(?:abbrev|unfoldable) )?pub (\S+) :", read(folder, module + ".antt"), re.M)
    return [name for name in names if re.search(r"_(tree|trees|node)$" if folder == "specs" else r"_\w+-[A-Z]", name)]


class Imports:
    def __init__(self, tree, code):
        self.modules, self.copiers = {}, {}
        self.types = {each.name: each.module for each in tree.types.values()}
        for folder, modules in (("specs", VIEWS), ("proofs", ["ExpressionForms", "StatementForms", "Places", "ApartExpressions", "ApartStatements"])):
            for module in modules:
                facade = "Equations" if module.endswith("Forms") else module
                for name in declared(folder, module):
                    self.modules.setdefault(name, f"Rattle.swc_ast.{folder}.{facade}")
        for name, _, path in map(code.copier, tree.types):
            self.copiers[name] = path.removeprefix("src/clone/").removesuffix(".rt")

    def add(self, file, piece):
        """Adds what a new piece names and its file neither imports nor has."""
        words = set(re.findall(r"(?<![\w.:-])[\w-]+(?![\w:-])", piece.text))
        is_code = file.path.endswith(".rt")
        for word in sorted(words - self.known(file)):
            if word in self.modules and self.modules[word].split(".")[-1] != os.path.basename(file.path).removesuffix(".antt"):
                put(file, "ghost use " if is_code else "use ", self.modules[word] + ".{", word, "};" if is_code else "}")
            elif word in self.types and is_code and file.path != f"src/{self.types[word]}.rt":
                put(file, "use ", f"crate::{self.types[word]}::{{", word, "};")
            elif word in self.types and not is_code:
                put(file, "use ", f"Rattle.swc_ast.specs.declared.{self.types[word]}.{word}.{{", word, "}")
            elif word in self.copiers and is_code and file.path != f"src/clone/{self.copiers[word]}.rt":
                put(file, "use ", f"crate::clone::{self.copiers[word]}::{{", word, "};")

    def known(self, file):
        """The names that a file imports, and those of its own items."""
        heads = "\n".join(item for item, name in zip(file.items, file.names) if not name)
        own = {re.sub(r"^(?:fn|ruleset) ", "", name) for name in file.names if name}
        return set(re.findall(r"[\w-]+", re.sub(r"\bdeclared\.[\w.]+?\.(?=\{)", "", heads))) | own


def put(file, word, module, name, end):
    """Adds a name to the list of a module, or a line where the file imports nothing of it."""
    begin = re.escape(word + module.removesuffix("{"))
    for place, item in enumerate(file.items):
        listed = re.search(rf"^{begin}\{{([^}}]*?),?\s*\}};?", item, re.M) if not file.names[place] else None
        single = re.search(rf"^{begin}(\w+);", item, re.M) if not file.names[place] else None
        found = listed or single
        if found:
            file.items[place] = item[: found.start()] + f"{word}{module}{found.group(1)}, {name}{end}" + item[found.end() :]
            return
    places = [place for place, each in enumerate(file.names) if not each and re.search(rf"^{word}", file.items[place], re.M)]
    place = places[-1] if places else 0
    file.items[place] += f"\n{word}{module}{name}{end}"
