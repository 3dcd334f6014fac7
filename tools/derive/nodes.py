"""What a derive would write in code: `Drop`, copies and `Clone`, comparisons, `==`."""
import re

from files import Piece
from structs import VALUES
from terms import function, here

WIDTH, LITERAL, CALL = 100, 18, 60
CLONES = ["leaves", "expressions", "objects", "targets", "functions", "declarations", "statements", "modules"]
COMPARISONS = ["same_leaves", "same_expressions", "same_statements", "same_hubs", "same_modules", "same_callables"]
EQUALITIES = ["equality", "equality_hubs", "equality_modules", "equality_parts"]
HUBS, MODULES = "src/same_hubs.rt", "src/clone/modules.rt"
ALLOCATED = ["Atom", "String"]
CALLED = {"CallExpr": "same_calls", "FnExpr": "same_fn_exprs", "FnDecl": "same_fn_decls"}


def snake(name):
    return re.sub(r"(?<!^)(?=[A-Z])", "_", name).lower()


def literal(name, fields, spaces):
    """A struct's value, in one line where it is short."""
    inner = ", ".join(fields)
    if len(inner) <= LITERAL:
        return f"{name} {{ {inner} }}"
    return f"{name} {{\n" + "".join(f"{' ' * (spaces + 4)}{field},\n" for field in fields) + " " * spaces + "}"


def arm(pattern, body, spaces):
    """An arm of a `match`, in one line where it fits."""
    line = f"{' ' * spaces}{pattern} => {body},"
    if len(line) <= WIDTH:
        return line + "\n"
    return f"{' ' * spaces}{pattern} => {{\n{' ' * (spaces + 4)}{body}\n{' ' * spaces}}}\n"


def signature(head, parameter, held, result):
    line = f"{head}({parameter}: &{held}) -> {result}"
    return line if len(line) <= WIDTH else f"{head}(\n    {parameter}: &{held},\n) -> {result}"


class Code:
    """Pieces of code for the types of the tree. Names of functions and of their parameters are those that the code has."""

    def __init__(self, tree, terms, files):
        self.tree, self.terms, self.files = tree, terms, files
        self.copiers = {}
        for name in CLONES:
            path = f"src/clone/{name}.rt"
            for function_name, parameter, held in re.findall(r"fn (copy_\w+)\(\s*(\w+): &([\w<>]+),?\s*\)", files[path].text):
                self.copiers[held] = function_name, parameter, path

    def place(self, names, item, otherwise):
        """The file among some that has an item, or the one where a new item is to be."""
        return next((path for path in names if self.files[path].place_of(item) is not None), otherwise)

    def home(self, each, folder, leaf, others):
        """The file for what is new of a type: by whether it holds expressions, and by its module."""
        if each.module == "modules":
            return f"src/{folder}modules.rt"
        inside = self.tree.in_cycle(each.name)
        return f"src/{folder}{(others[0] if each.module == 'expressions' else others[1]) if inside else leaf}.rt"

    # copies

    def copier(self, held):
        """The function that copies values of a type, by the type's text: its name, its parameter, and its file."""
        if held in self.copiers:
            return self.copiers[held]
        each = self.tree.types[re.findall(r"\w+", held)[-1]]
        path = self.home(each, "clone/", "leaves", ["expressions", "statements"])
        word = snake(re.sub(r"(?<=.)(Expr|Stmt|Lit)$", "", each.name))
        for wrapper, name in (("Box<", "boxed_"), ("Option<", "option_"), ("Vec<", "list_of_")):
            word = name + word if held.startswith(wrapper) else word
        return "copy_" + word, "n", path

    def item_of_copier(self, held):
        name, parameter, path = self.copier(held)
        cycle = self.tree.in_cycle(re.findall(r"\w+", held)[-1])
        lines = "#[cycle(clone)]\n" if cycle else ""
        lines += "#[inline(never)]\n" if held.startswith("Box<") else ""
        head = ("fn " if path == MODULES else "pub(crate) fn ") + name
        fails = not (held in self.tree.types and self.tree.is_copied_at_once(held))
        lines += signature(head, parameter, held, f"Result<{held}, AllocError>" if fails else held)
        lines += "\n    ensures { " + here(self.promise(held, parameter, fails), self.files[path]) + " }\n{\n"
        return Piece(path, "fn " + name, lines + self.body_of_copier(held, parameter, fails) + "}")

    def promise(self, held, parameter, fails):
        """What a copy has in common with its source: the tree."""
        if held.startswith("Vec<"):
            each = function(self.terms.of(held[4:-1], "x"), "x")
            return f"IfOk result (λ r. map {each} r.items ≡ map {each} {parameter}.now.items)"
        before = self.option_tree(held, f"{parameter}.now") or self.terms.of(held, f"{parameter}.now")
        copy = "r" if fails else "result"
        after = self.option_tree(held, copy) or self.terms.of(held, copy)
        return f"IfOk result (λ r. {after} ≡ {before})" if fails else f"{after} ≡ {before}"

    def option_tree(self, held, value):
        boxed = re.fullmatch(r"Option<Box<(\w+)>>", held)
        return boxed and f"option_tree {self.terms.view(boxed.group(1))} {value}"

    def body_of_copier(self, held, parameter, fails):
        wrapper, _, inner = held.partition("<")
        inner = inner[:-1]
        if wrapper == "Box":
            call = f"{self.copier(inner)[0]}({parameter})?"
            return f"    let alloc = *Box::allocator({parameter});\n    let copy = {call};\n    Ok(Box::new(alloc, copy)?)\n"
        if wrapper == "Option":
            value = self.copier(inner)[1]
            return f"    match {parameter} {{\n        Some({value}) => Ok(Some({self.copier(inner)[0]}({value})?)),\n        None => Ok(None),\n    }}\n"
        if wrapper == "Vec":
            each = parameter[:-1] or "x"
            return (
                f"    let mut out = Vec::with_capacity(*{parameter}.allocator(), {parameter}.len())?;\n    for {each} in {parameter} {{\n"
                f"        out.push({self.copier(inner)[0]}({each})?)?;\n    }}\n    Ok(out)\n"
            )
        each = self.tree.types[held]
        return self.body_of_enum(each, parameter) if each.is_enum else self.body_of_struct(each, parameter, fails)

    def body_of_struct(self, each, parameter, fails):
        lets, fields = "", []
        for field, text in each.parts:
            held = self.tree.bare(text, each)
            value = f"{parameter}.{field}"
            if held in VALUES or held == "Option<Span>":
                fields.append(f"{field}: {value}")
                continue
            fields.append(field)
            if held in ALLOCATED:
                lets += f"    let {field} = {value}.clone()?;\n"
            elif held.startswith("Vec<") and held not in self.copiers and each.module == "modules":
                name, item, _ = self.copier(held[4:-1])
                item = re.sub(r"^n$", "s", item)
                lets += f"    let mut {field} = Vec::with_capacity(*{value}.allocator(), {value}.len())?;\n"
                lets += f"    for {item} in &{value} {{\n        {field}.push({name}({item})?)?;\n    }}\n"
            else:
                lets += f"    let {field} = {self.copier(held)[0]}(&{value})?;\n"
        made = literal(each.name, fields, 4)
        return lets + (f"    Ok({made})\n" if fails else f"    {made}\n")

    def body_of_enum(self, each, parameter):
        arms = ""
        for variant, text in each.parts:
            held = self.tree.bare(text, each)
            name, fails = self.copier(held)[0], not (held in self.tree.types and self.tree.is_copied_at_once(held))
            body = f"Ok({each.name}::{variant}({name}(n){'?' if fails else ''}))"
            if each.name in ("Expr", "Stmt") and self.is_apart(held):
                body = f"{each.name.lower()}_of_{snake(variant)}(n)"
            arms += arm(f"{each.name}::{variant}(n)", body, 8)
        return f"    match {parameter} {{\n{arms}    }}\n"

    def is_apart(self, held):
        """Whether the copy of a variant of `Expr` or `Stmt` has a function of its own, so that the large match keeps a small frame."""
        return not held.startswith("Box<") and not self.tree.is_copied_at_once(held)

    def item_of_variant(self, enum, variant, held):
        name, whole = f"{enum.lower()}_of_{snake(variant)}", self.terms.view(enum)
        lines = ("#[cycle(clone)]\n" if self.tree.in_cycle(held) else "") + "#[inline(never)]\n"
        lines += signature("fn " + name, "n", held, f"Result<{enum}, AllocError>")
        lines += f"\n    ensures {{ IfOk result (λ r. {whole} r ≡ {self.terms.of_variant(enum, variant, 'n.now')}) }}\n"
        lines += f"{{\n    Ok({enum}::{variant}({self.copier(held)[0]}(n)?))\n}}"
        return Piece(self.copier(enum)[2], "fn " + name, lines)

    def clone(self, each):
        name, _, path = self.copier(each.name)
        term = here(self.terms.of(each.name, "{}"), self.files[path])
        if each.name == "TplElement":
            term = here(self.terms.of(each.name, "{}", tree_alone=True), self.files[path])
        call = f"{name}(self)" if not self.tree.is_copied_at_once(each.name) else f"Ok({name}(self))"
        lines = f"impl Clone for {each.name} {{\n    ghost is_clone = {{ λ x y. {term.replace('{}', 'y')} ≡ {term.replace('{}', 'x')} }};\n\n"
        lines += f"    fn clone(&self) -> Result<{each.name}, AllocError> {{\n        {call}\n    }}\n}}"
        return Piece(path, f"impl Clone for {each.name}", lines)

    # comparisons

    def compare(self, each, option=False):
        held = f"Option<{each.name}>" if option else each.name
        item = f"impl Compare for {held}"
        path = self.place([f"src/{name}.rt" for name in COMPARISONS], item, self.home(each, "same_", "leaves", ["expressions", "statements"]))
        letter = each.parameter
        generic = f"{each.name}<{letter}>" if letter else each.name
        spelled = f"Option<{generic}>" if option else generic
        head = f"impl<{letter}: Compare> Compare for {spelled}" if letter else item
        value = "e" if each.name == "Expr" else "n"
        term = here(self.terms.of(held, value, letter and f"{letter}.tree", True), self.files[path])
        lines = f"{head} {{\n    ghost tree = {{ λ {value}. {term} }};\n\n" + ("    #[cycle(same)]\n" if path == HUBS else "")
        lines += f"    fn is_same(&self, other: &{spelled}, spans: bool) -> bool {{\n"
        return Piece(path, item, lines + self.body_of_comparison(each, option, path) + "    }\n}")

    def body_of_comparison(self, each, option, path):
        if option:
            arms = "            (Some(a), Some(b)) => a.is_same(b, spans),\n            (None, None) => true,\n"
        elif each.name == "Expr":
            return self.body_of_nested(each)
        elif each.is_enum:
            arms = ""
            for variant, text in each.parts:
                pattern = f"({each.name}::{variant}(a), {each.name}::{variant}(b))"
                arms += arm(pattern, self.compared(text, path), 12)
        else:
            return chain(parts_of_comparison(each))
        return f"        match (self, other) {{\n{arms}            _ => false,\n        }}\n"

    def body_of_nested(self, each):
        arms = ""
        for variant, text in each.parts:
            arms += f"            Expr::{variant}(a) => match other {{\n                Expr::{variant}(b) => {self.compared(text, HUBS)},\n"
            arms += "                _ => false,\n            },\n"
        return f"        match self {{\n{arms}        }}\n"

    def compared(self, text, path):
        name = CALLED.get(self.tree.bare(text)) if path == HUBS else None
        return f"{name}(a, b, spans)" if name else "a.is_same(b, spans)"

    def equality(self, each):
        """`PartialEq` and `Eq` of a type."""
        item = f"impl PartialEq for {each.name}"
        otherwise = "equality_modules" if each.module == "modules" else "equality" if self.tree.in_cycle(each.name) else "equality_parts"
        path = self.place([f"src/{name}.rt" for name in EQUALITIES], item, f"src/{otherwise}.rt")
        letter = each.parameter if path != "src/equality_hubs.rt" else None
        spelled = f"{each.name}<{letter}>" if letter else each.name
        impl = f"impl<{letter}: Compare>" if letter else "impl"
        terms = [here(self.terms.of(each.name, value, letter and f"{letter}.tree", True), self.files[path]) for value in "abn"]
        law = function(terms[2], "n")
        yield Piece(path, item, (
            f"{impl} PartialEq for {spelled} {{\n    ghost eq = {{ λ a b. same true ({terms[0]}) ({terms[1]}) }};\n\n"
            f"    ghost laws = {{ partial-by {law} }};\n\n"
            f"    fn eq(&self, other: &{spelled}) -> bool {{\n        self.is_same(other, true)\n    }}\n}}"
        ))
        yield Piece(path, f"impl Eq for {each.name}", f"{impl} Eq for {spelled} {{\n    ghost laws = {{ equivalence-by {law} }};\n}}", behind=item)

    # drop

    def drop(self, each):
        path, name = f"src/{each.module}.rt", each.name
        if each.is_enum:
            arms = "".join(f"            {name}::{variant}(node) => drop(node),\n" for variant, _ in each.parts)
            lines = f"impl Drop for {name} {{\n    #[cycle(let_go)]\n    fn drop(self) {{\n        match self {{\n{arms}        }}\n    }}\n}}"
        else:
            fields = ", ".join(field if text not in VALUES else f"{field}: _" for field, text in each.parts)
            drops = "".join(f"        drop({field});\n" for field, text in each.parts if text not in VALUES)
            lines = f"impl Drop for {name} {{\n    fn drop(self) {{\n        let {name} {{ {fields} }} = self;\n{drops}    }}\n}}"
        return Piece(path, f"impl Drop for {name}", lines)


def parts_of_comparison(each):
    """What two structs are compared by: values, spans, and children."""
    values, spans, children = [], [], []
    for field, text in each.parts:
        if text == "Span":
            spans.append(field)
        elif text in ("Ident", "IdentName", "Str"):
            inner = {"Ident": ["sym", "ctxt"], "IdentName": ["sym"], "Str": ["value"]}[text]
            values += [f"(self.{field}.{name} == other.{field}.{name})" for name in inner]
            spans.append(field + ".span")
        elif text == "i64":
            values.append(f"self.{field}.eq(&other.{field})")
        elif text in VALUES + ALLOCATED:
            values.append(f"(self.{field} == other.{field})")
        else:
            children.append(f"self.{field}.is_same(&other.{field}, spans)")
    return values + ([agree(spans)] if spans else []) + children


def agree(spans):
    arguments = ["spans"] + [f"&[{', '.join(f'{side}.{span}' for span in spans)}]" for side in ("self", "other")]
    inner = ", ".join(arguments)
    if len(inner) <= CALL:
        return f"spans_agree({inner})"
    return "spans_agree(\n" + "".join(f"                {argument},\n" for argument in arguments) + "            )"


def chain(parts):
    line = "        " + " & ".join(parts)
    return (line if len(line) <= WIDTH and "\n" not in line else "        " + "\n            & ".join(parts)) + "\n"


# What isn't written, since it isn't as the others: see the command's own description.
COPIES_BY_HAND = ["Option<Ident>", "Option<IdentName>", "TplElement", "Vec<TplElement>", "Tpl", "VarDeclOrExpr"]
COMPARISONS_BY_HAND = ["TplElement", "CallExpr", "FnExpr", "FnDecl"]


def is_compared(each):
    """Whether the comparison of a type is written: none of its parts may be left out unless it is a child."""
    left_out = any(re.fullmatch(r"Option<(Span|Ident|IdentName)>", text) for _, text in each.parts)
    return each.name not in COMPARISONS_BY_HAND and not left_out


def helpers(code):
    """The texts of types that fields of structs have and that have a function for copies."""
    for each in code.tree.types.values():
        for _, text in each.parts:
            held = code.tree.bare(text, each)
            while "<" in held:
                if held in code.copiers or (each.module != "modules" and held != "Box<Vec<TplElement>>" and held != "Option<Span>"):
                    yield held
                held = held.partition("<")[2][:-1]


def pieces(tree, terms, files):
    """All pieces of code, each behind the one of its kind that its file has in front of it."""
    last = {}
    for piece in pieces_apart(tree, terms, files):
        kind = piece.file, re.match(r"fn [a-z]+|impl \w+", piece.item).group().replace("PartialEq", "Eq")
        piece.behind = piece.behind or last.get(kind, "")
        last[kind] = piece.item
        yield piece


def pieces_apart(tree, terms, files):
    code, types = Code(tree, terms, files), list(tree.types.values())
    for held in dict.fromkeys([*tree.types, *helpers(code)]):
        if held not in COPIES_BY_HAND:
            yield code.item_of_copier(held)
    for enum in ("Expr", "Stmt"):
        for variant, text in tree.types[enum].parts:
            if code.is_apart(tree.bare(text)):
                yield code.item_of_variant(enum, variant, tree.bare(text))
    for each in types:
        yield code.clone(each)
        if is_compared(each):
            yield code.compare(each)
        yield from code.equality(each)
        if not each.derives_drop:
            yield code.drop(each)
    optional = re.findall(r"Option<(\w+)<\w>", " ".join(text for each in types for _, text in each.parts))
    for name in dict.fromkeys(optional):
        if name in tree.types:
            yield code.compare(tree.types[name], option=True)
