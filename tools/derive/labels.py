"""Labels, read from their sorts: each by its own name, how they are compared, and that this is exact."""
import re

from files import Piece
from structs import read

# How the parts of labels are compared, and by which record that is exact.
COMPARED = {
    "ℤ": ("int_eq", "integers"), "Text": ("bytes_eq", "texts"), "Bool": ("beq", "truths"), "Name": ("same_name", "names"), "Key": ("same_key", "keys"),
    "ItemKind": ("same_item", "items"), "Text × Bool": ("same_quasi", "quasis"), "UnaryOp": ("same_unary", "unaries"), "UpdateOp": ("same_update", "updates"),
    "BinaryOp": ("same_binary", "binaries"), "AssignOp": ("same_assign", "assigns"), "VarDeclKind": ("same_kind", "kinds"),
}


def labels():
    """The labels, with their sorts and the types of their parts, in the order of the text."""
    sort = ""
    for line in read("specs", "Sorts.antt").splitlines():
        head = re.match(r"pub data (\w+)Label :", line)
        sort = head.group(1).lower() if head else sort
        label = re.match(r"  (\w+) : ((?:.* → )?)\w+Label$", line)
        if label and sort:
            yield label.group(1), sort, [part for part in label.group(2).split(" → ") if part]


def is_known(text):
    """Whether it is known how a part of a label is compared."""
    text = re.sub(r"^\((.*)\)$", r"\1", text)
    wrapper, _, inner = text.partition(" ")
    return is_known(inner) if wrapper in ("List", "Option") else text in COMPARED


def compared(text, which):
    """How a part of a label is compared, or the record that says that it is exact."""
    text = re.sub(r"^\((.*)\)$", r"\1", text)
    wrapper, _, inner = text.partition(" ")
    if wrapper in ("List", "Option"):
        word = {"List": ("pointwise", "lists"), "Option": ("same_option", "options")}[wrapper][which]
        inner = compared(inner, which)
        return f"{word} {inner if ' ' not in inner else f'({inner})'}"
    return COMPARED[text][which]


def label_pieces():
    """Each label by its own name, that labels are compared by their parts, and that this is exact."""
    last, path = {}, "specs/SameLaws.antt"
    for label, sort, parts in labels():
        names, type_of = " a b c".split(" ")[1 : len(parts) + 1], "".join(f"{part} → " for part in parts)
        inner = f"(by_sort.{label} {' '.join(names)})" if parts else f"by_sort.{label}"
        left = " ".join([label, *names])
        text = f"pattern abbrev pub {label} : {type_of}Label\n{left} = {sort} {inner}"
        yield Piece("specs/Tree.antt", label, text, behind=last.get("tree", ""))
        last["tree"] = label
        if len(parts) < 4 and all(map(is_known, parts)):
            yield same_label(label, sort, parts, last)
            yield from exact(label, parts, path, last)


def sides_of(parts):
    """Variables for the parts of two labels: operators, words of declarations and truth values beside others have letters of their own."""
    pairs = []
    for part in parts:
        pair = ("a", "b") if ("a", "b") not in pairs else ("k", "l")
        if part in ("AssignOp", "UpdateOp"):
            pair = ("o", "p")
        elif len(parts) > 1 and part == "VarDeclKind":
            pair = ("k", "l")
        elif len(parts) > 1 and part == "Bool":
            pair = ("c", "d")
        pairs.append(pair)
    return pairs


def same_label(label, sort, parts, last):
    table, pairs = f"same_{sort}_label", sides_of(parts)
    sides = [f"(by_sort.{label} {' '.join(pair[side] for pair in pairs)})" if parts else f"by_sort.{label}" for side in (0, 1)]
    begin = f"{table} {sides[0]} {sides[1]} ="
    tests = [f"{compared(part, 0)} {a} {b}" for part, (a, b) in zip(parts, pairs)]
    proof = tests[0] if tests else "true"
    for number, each in enumerate(tests[1:]):
        proof = f"({proof}) && {each}" if number else f"{proof} && {each}"
    behind, last[table] = last.get(table, ""), begin
    return Piece("specs/Same.antt", table, f"{begin} {proof}", begin, behind)


def exact(label, parts, path, last):
    """That labels that are the same are equal, and that a label is the same as itself."""
    names = [("a", "b"), ("c", "d"), ("k", "l")] if len(parts) == 3 else [("a", "b"), ("k", "l")][: len(parts)]
    sides = [f"(tree.{label} {' '.join(pair[side] for pair in names)})" if parts else f"tree.{label}" for side in (0, 1)]
    records = [compared(part, 1) for part in parts]
    records = [record if " " not in record else f"({record})" for record in records]
    given = {0: [], 1: ["e"], 2: ["(left-of _ _ e)", "(right-of _ _ e)"], 3: ["(left-of _ _ (left-of _ _ e))", "(right-of _ _ (left-of _ _ e))", "(right-of _ _ e)"]}
    equal = [f"({record}.is {a} {b} {proof})" for record, (a, b), proof in zip(records, names, given[len(parts)])]
    selves = [f"{record}.self {a}" for record, (a, _) in zip(records, names)]
    proof = f"ap{len(parts) if len(parts) > 1 else ''} tree.{label} {' '.join(equal)}" if parts else "refl"
    own = selves[0] if selves else "refl"
    for each in selves[1:]:
        own = f"both-of _ _ ({own}) ({each})"
    for table, begin, text in (("labels-is", f"labels-is {sides[0]} {sides[1]} e =", proof), ("labels-self", f"labels-self {sides[0]} =", own)):
        key = f"{table} {len(parts)}"
        yield Piece(path, table, f"{begin} {text}", begin, last.get(key, ""))
        last[key] = begin
