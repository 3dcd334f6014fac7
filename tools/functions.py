"""The functions of a crate's code, as far as a search by names tells them apart."""
import os
import re

from repository import TOP, read_crates

FUNCTION = re.compile(r"^( *)(pub )?(?:pub\(\w+\) )?(?:const )?fn (\w+)", re.M)
BLOCK = re.compile(r"^(pub )?(impl|trait)\b(?:<[^{]*?>)? ?(.*?)(?: where.*)?\{?$", re.M)


def public_crates():
    """The crates of the library, and those named `shake_`."""
    return [name for name in read_crates() if name.split("_")[0] in ("swc", "core", "stmt") or name.startswith("shake_")]


def text_of(text, found):
    """The text of a function, up to the brace that ends it, or where it has no body up to the next function."""
    indent = found[1]
    ended = re.compile(rf"^{indent}(?:\{{\}}|\}})$|(?<=[^{{]\{{\}})$", re.M).search(text, found.start())
    following = FUNCTION.search(text, found.end())
    ends = [ended.end() if ended else len(text), following.start() if following and len(following[1]) <= len(indent) else len(text)]
    return text[found.start() : min(ends)]


class Function:
    """A function of a crate: its file, where its text is, and the type or trait that it belongs to."""

    def __init__(self, crate, path, text, found):
        self.crate, self.path, self.name, self.is_pub = crate, path, found[3], bool(found[2])
        self.text = text_of(text, found)
        blocks = [it for it in BLOCK.finditer(text) if it.start() < found.start()]
        self.block = blocks[-1] if found[1] and blocks else None
        self.others = []

    @property
    def is_law(self):
        """Whether it has no body."""
        return self.text.rstrip().endswith("{}")

    @property
    def owner(self):
        """The type or the trait that it belongs to, without parameters, or None."""
        if self.block is None:
            return None
        return re.sub(r"<.*", "", self.block[3].split(" for ")[-1]).strip().lstrip("&")

    @property
    def is_of_trait(self):
        """Whether it belongs to a trait, or to an implementation of one."""
        return self.block is not None and (self.block[2] == "trait" or " for " in self.block[3])

    @property
    def label(self):
        return f"{self.owner}::{self.name}" if self.owner else self.name

    def is_called(self, calls):
        """Whether it is among calls, each a name with what stands in front of it."""
        return any(name == self.name and front in (None, self.owner, self.crate) for front, name in calls)

    def has_edit(self, places, calls):
        """Whether an edit changes it or what it calls inside its crate, or is at a call of one of these."""
        return any(it.is_called(calls) or any(path == it.path and old in it.text for path, old in places) for it in self.reaches())

    def reaches(self):
        """The functions of its crate that it calls, itself included: by name, and those of traits by the types that are named."""
        found, left = [], [self]
        while left:
            one = left.pop()
            if one not in found:
                found.append(one)
                names = set(re.findall(r"\b\w+\b", one.text))
                left += [it for it in self.others if it.name in names or it.is_of_trait and it.owner in names]
        return found


def functions_of(crate):
    """All functions of a crate."""
    found = []
    for folder, _, names in sorted(os.walk(os.path.join(TOP, "crates", crate, "src"))):
        for name in sorted(names):
            file = os.path.join(folder, name)
            with open(file, encoding="utf-8") as it:
                text = it.read()
            path = os.path.relpath(file, os.path.join(TOP, "crates", crate))
            found += [Function(crate, path, text, one) for one in FUNCTION.finditer(text)]
    for one in found:
        one.others = found
    return found


def exported(crate):
    """The names that a crate makes public."""
    with open(os.path.join(TOP, "crates", crate, "src", "lib.rt"), encoding="utf-8") as file:
        text = file.read()
    uses = " ".join(re.findall(r"^pub use ([^;]*);", text, re.M))
    return {*re.findall(r"\w+", uses), *re.findall(r"^pub (?:fn|struct|enum|trait) (\w+)", text, re.M)}


def public_functions(crate):
    """The public functions of a crate that have a body: free ones, methods of public types, and those that public traits have."""
    names, found = exported(crate), {}
    for one in functions_of(crate):
        of_trait = one.block is not None and one.block[2] == "trait" and one.block[1]
        is_public = (one.owner in names if one.owner else one.name in names) and (one.is_pub or of_trait)
        if is_public and not (one.is_law and not of_trait):
            found.setdefault(one.label, one)
    return list(found.values())


def calls_of(text):
    """The calls in a text, each a name with the type or the crate in front of it, or None."""
    return {(front or None, name) for front, name in re.findall(r"(?:(\w+)::)?(\w+)(?:::<[^>]*>)?\(", text)}
