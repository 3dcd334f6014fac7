"""Files as items: what stands between blank lines at the left margin, by name. A piece is an item or a line of one that is written."""
import os
import re
from dataclasses import dataclass

from structs import AST


@dataclass
class Piece:
    """An item, or one line of an item where `line` is its beginning; `behind` is the piece that it follows where it is new."""
    file: str
    item: str
    text: str
    line: str = ""
    behind: str = ""


def name_of(lines, is_code):
    """The name of an item: an `impl` or a function of code, or the lemma or the definition that is declared."""
    for text in lines:
        if is_code:
            found = re.match(r"(?:pub(?:\(crate\))? )?((?:fn \w+)|(?:impl(?:<.*?>)? \w+ for [\w<>]+))", text)
            name = found and re.sub(r"^impl<.*?> ", "impl ", found.group(1))
        else:
            found = re.match(r"(?:(?:pattern abbrev|abbrev|unfoldable) )?(?:pub )?(ruleset \w+|\S+) [:=] ?", text)
            name = found and found.group(1)
        if name:
            return re.sub(r"<\w>", "", name)
    return ""


class File:
    """A file of swc_ast, cut into items; the first of them may be imports."""

    def __init__(self, path):
        self.path = path
        self.text = ""
        if os.path.exists(os.path.join(AST, path)):
            with open(os.path.join(AST, path)) as file:
                self.text = file.read()
        self.items = []
        for chunk in filter(None, self.text.rstrip("\n").split("\n\n")):
            if self.items and chunk.startswith((" ", "}")):
                self.items[-1] += "\n\n" + chunk
            else:
                self.items.append(chunk)
        self.names = [name_of(item.split("\n"), path.endswith(".rt")) for item in self.items]

    def place_of(self, name):
        return self.names.index(name) if name in self.names else None

    def now(self, piece):
        """What the file has for a piece, or none."""
        place = self.place_of(piece.item)
        if place is None:
            return None
        if not piece.line:
            return self.items[place].removeprefix(comment_of(self.items[place]))
        return next((line for line in self.items[place].split("\n") if line.startswith(piece.line)), None)

    def imported(self, module):
        """The names that the file imports from a module of the specifications."""
        found = re.findall(rf"^(?:ghost )?use Rattle\.swc_ast\.specs\.{module}\.\{{(.*?)\}}", self.text, re.M)
        return [name for names in found for name in names.split(", ")]

    def start_of(self, place):
        """The number of an item's first line, from 0."""
        return sum(item.count("\n") + 2 for item in self.items[:place])

    def put(self, piece):
        """Writes a piece in its place, or behind the one that it follows, or at the end."""
        place = self.place_of(piece.item)
        if piece.line:
            lines = self.items[place].split("\n")
            self.items[place] = "\n".join(put_line(lines, piece))
        elif place is not None:
            self.items[place] = comment_of(self.items[place]) + piece.text
        else:
            before = self.place_of(piece.behind) if piece.behind else None
            place = len(self.items) if before is None else before + 1
            self.items.insert(place, piece.text)
            self.names.insert(place, piece.item)

    def written(self):
        return "\n\n".join(self.items) + "\n"


def comment_of(item):
    """The lines of comments in front of an item."""
    return re.match(r"(?:(?:--|///).*\n)*", item).group()


def put_line(lines, piece):
    """The lines of an item with a line in it."""
    places = [place for place, line in enumerate(lines) if line.startswith(piece.line)]
    if places:
        return lines[: places[0]] + [piece.text] + lines[places[0] + 1 :]
    before = [place for place, line in enumerate(lines) if piece.behind and line.startswith(piece.behind)]
    word = piece.text.split()[0]
    first = [place for place, line in enumerate(lines) if line.startswith(word + " ") and not line.startswith(word + " :")]
    place = before[-1] + 1 if before else first[0] if first else 1
    return lines[:place] + [piece.text] + lines[place:]


def lines_of(file, piece):
    """The numbers of the lines that a piece has in a file, from 0."""
    place = file.place_of(piece.item)
    if place is None:
        return range(0)
    start = file.start_of(place)
    if not piece.line:
        return range(start, start + file.items[place].count("\n") + 1)
    return [start + number for number, line in enumerate(file.items[place].split("\n")) if line.startswith(piece.line)]
