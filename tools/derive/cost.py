"""What a kind of node costs: the lines, files and crates that name it."""
import os
import re

from structs import TOP, read

FOLDERS = ["src", "specs", "proofs"]
TESTS = ["tests", "test_trees", "test_answers", "test_orders"]


def form_tables():
    """The tables that number the labels and the variants of expressions and of statements."""
    for name, enum in (("expr", "Expr"), ("stmt", "Stmt")):
        text = read("proofs", f"Apart{'Expressions' if enum == 'Expr' else 'Statements'}.antt")
        labels = re.findall(rf"^{name}_form \(?tree\.(\w+).* = (\d+)$", text, re.M)
        variants = re.findall(rf"^{name}_number \(Open\.(?:\w+::)?(\w+) n\) = (\d+)$", text, re.M)
        yield enum, labels, dict(variants)


def kinds():
    """The names of all kinds."""
    return [variant for _, _, numbers in form_tables() for variant in numbers]


def words_of(name, tree):
    """The names of a kind: its variant, what the variant holds, and its labels."""
    words = {name}
    for enum, labels, numbers in form_tables():
        if name in numbers:
            words |= {label for label, number in labels if number == numbers[name]}
            held = re.findall(r"\w+", dict(tree.types[enum].parts)[name].replace("Box<", ""))[0]
            words |= {held} if held not in ("Ident", "Lit", "Decl") else set()
    return words


def crates():
    """The crates that count: none of the tests, and none that repeats promises for edits."""
    for crate in sorted(os.listdir(os.path.join(TOP, "crates"))):
        if os.path.isdir(os.path.join(TOP, "crates", crate)) and crate not in TESTS and not crate.startswith("claims_of_"):
            yield crate


def code_lines(path, names):
    """The lines of a file that match and are no imports and no comments, with their numbers from 0."""
    with open(path) as file:
        text = file.read()
    in_use = False
    for number, line in enumerate(text.split("\n") if names.search(text) else ()):
        line = line.strip()
        if in_use or line.startswith(("use ", "pub use ", "ghost use ")):
            in_use = path.endswith(".rt") and not line.endswith(";")
        elif not line.startswith(("--", "//")) and names.search(line):
            yield number, line


def lines_with(names):
    """The lines of code that match, in all crates that count: the crate, the folder, the path, the number and the text of each."""
    for crate in crates():
        for folder in FOLDERS:
            for place, _, files in os.walk(os.path.join(TOP, "crates", crate, folder)):
                for path in (os.path.join(place, file) for file in files if file.endswith((".rt", ".antt"))):
                    for number, line in code_lines(path, names):
                        yield crate, folder, path, number, line


class Cost:
    """How many lines name a kind, by folder, and in which files and crates; those of pieces that are written apart."""

    def __init__(self):
        self.lines, self.files, self.crates, self.generated = dict.fromkeys(FOLDERS, 0), set(), set(), 0

    def add(self, crate, folder, path, is_generated):
        if is_generated:
            self.generated += 1
        else:
            self.lines[folder] += 1
            self.files.add(path)
            self.crates.add(crate)


def costs_of(names, tree, generated):
    """The costs of kinds; `generated` has the lines of pieces by file."""
    words = {name: "|".join(sorted(words_of(name, tree))) for name in names}
    patterns = {name: re.compile(rf"(?<!\w)(?:{each})(?!\w)") for name, each in words.items()}
    costs = {name: Cost() for name in names}
    for crate, folder, path, number, line in lines_with(re.compile(rf"(?<!\w)(?:{'|'.join(words.values())})(?!\w)")):
        for name, pattern in patterns.items():
            if pattern.search(line):
                costs[name].add(crate, folder, path, number in generated.get(path, ()))
    return costs
