"""The types of the syntax tree, read from the sources of swc_ast: structs, enums, and what their fields hold."""
import functools
import os
import re

TOP = os.path.realpath(os.path.join(os.path.dirname(os.path.abspath(__file__)), "..", ".."))
AST = os.path.join(TOP, "crates", "swc_ast")
MODULES = ["names", "literals", "expressions", "declarations", "statements", "modules"]
VALUES = ["bool", "i64", "u32", "Span", "SyntaxContext", "UnaryOp", "UpdateOp", "BinaryOp", "AssignOp", "VarDeclKind"]


class Type:
    """A struct or an enum: its parts are the fields or the variants, each a name and the text of a type."""

    def __init__(self, name, parameter, default, is_enum, module, attributes):
        self.name, self.parameter, self.default = name, parameter, default
        self.is_enum, self.module, self.attributes = is_enum, module, attributes
        self.parts = []

    @property
    def derives_drop(self):
        return "Drop" in self.attributes


@functools.cache
def read(*parts):
    """The text of a file of swc_ast, as it is at first."""
    with open(os.path.join(AST, *parts)) as file:
        return file.read()


def types_of(module):
    """The types of one module, in the order of the text, and the names that stand for others."""
    found, aliases, attributes, open_type = [], {}, "", None
    for line in read("src", module + ".rt").splitlines():
        head = re.match(r"pub (struct|enum) (\w+)(?:<(\w+) = (\w+)>)? \{$", line)
        alias = re.match(r"pub type (\w+) = (\w+);$", line)
        part = re.match(r"    (?:pub (\w+): (.+)|(\w+)\((.+)\)),$", line)
        if head:
            word, name, parameter, default = head.groups()
            open_type = Type(name, parameter, default, word == "enum", module, attributes)
            found.append(open_type)
        elif alias:
            aliases[alias.group(1)] = alias.group(2)
        elif open_type and part:
            open_type.parts.append((part.group(1) or part.group(3), part.group(2) or part.group(4)))
        attributes = attributes + line if line.startswith("#[") else ""
        if line == "}":
            open_type = None
    return found, aliases


def split(text):
    """The name in front of a type's text, and what stands in the angle brackets, if anything."""
    name, _, rest = text.partition("<")
    return name, rest[:-1] if rest else None


class Tree:
    """All types by name, and what follows from how they hold each other."""

    def __init__(self):
        self.types, self.aliases, self.cycle = {}, {}, None
        for module in MODULES:
            found, aliases = types_of(module)
            self.types.update((each.name, each) for each in found)
            self.aliases.update(aliases)

    def plain(self, text):
        """A type's text with other names for types replaced."""
        return self.aliases.get(text, text)

    @functools.cache
    def bare(self, text, owner=None):
        """A type's text as signatures have it: without what stands in brackets behind types of the tree."""
        if owner is not None and owner.parameter:
            text = re.sub(rf"\b{owner.parameter}\b", owner.default, text)
        names = "|".join(self.types)
        while re.search(rf"\b({names})<\w+>", text):
            text = re.sub(rf"\b({names})<\w+>", r"\1", text)
        return re.sub(r"\w+", lambda match: self.plain(match.group()), text)

    def names_in(self, text, owner=None):
        """The types of the tree that a type's text names, with those that it leaves out since they are defaults."""
        names = [name for name in re.findall(r"\w+", self.bare(text, owner)) if name in self.types]
        return names + [self.types[name].default for name in names if self.types[name].default]

    def reached(self, name):
        """The types that a value of one may hold, itself among them."""
        seen, left = set(), [name]
        while left:
            each = left.pop()
            if each not in seen:
                seen.add(each)
                left += [other for _, text in self.types[each].parts for other in self.names_in(text, self.types[each])]
        return seen

    def in_cycle(self, name):
        """Whether values of a type may stand in an expression and hold one."""
        if self.cycle is None:
            self.cycle = {other for other in self.reached("Expr") if "Expr" in self.reached(other)}
        return name in self.cycle

    def is_copied_at_once(self, name):
        """Whether a copy of a struct asks for no memory: all of its fields are values."""
        each = self.types[name]
        return not each.is_enum and all(text in VALUES for _, text in each.parts)
