"""The tree of a value, as specifications spell it: read from the definitions in `specs` of swc_ast."""
import re

from structs import read

VIEWS = ["Views", "Nodes", "Parts", "Statements", "Expressions", "Modules"]
STEPS = {
    "Expr": "expr", "Stmt": "stmt", "Decl": "decl", "Prop": "prop", "PropOrSpread": "prop_or_spread", "BlockStmtOrExpr": "arrow_body",
}
# Trees that no definition of their own has: a case of another one.
CASES = {
    "Str": "leaf (tree.StrLit (string_bytes n.value)) n.span",
    "Bool": "leaf (tree.BoolLit n.value) n.span",
    "Null": "leaf tree.NullLit n.span",
    "Number": "leaf (tree.NumLit n.value) n.span",
    "TplElement": "leaf (tree.Template (quasi_text n ∷ [])) n.span",
    "ExprOrSpread": "element_node n.spread (f n.expr.value)",
    "ComputedPropName": "node tree.ComputedKey (n.span ∷ []) (f n.expr.value ⊳ ε)",
    "AssignPat": "param_tree f (Assign n)",
    "ImportNamedSpecifier": "import_specifier_tree (Named n)",
    "ImportDefaultSpecifier": "import_specifier_tree (Default n)",
    "ImportStarAsSpecifier": "import_specifier_tree (Namespace n)",
}
SIGNATURE = re.compile(
    r"^(?:abbrev |unfoldable )pub (\w+) : (?:\{(\w) : Type 0\} → \(\2 → \w+\) → )?(VarDeclKind → )?(Option \(?)?(\w+)(?: \2)?\)? → (Tree|\w+Trees)$", re.M
)


def put(term, value):
    """A term with a value for `n`."""
    return re.sub(r"(?<![\w.])n(?!\w)", value, term)


class Terms:
    def __init__(self, tree):
        self.tree, self.defined, self.steps = tree, [], {}
        self.text = "\n".join(read("specs", module + ".antt") for module in VIEWS)
        for module in VIEWS:
            for name, parameter, kind, option, of, result in SIGNATURE.findall(read("specs", module + ".antt")):
                if of in tree.types:
                    self.defined.append((bool(option), of, result, " ".join(filter(None, [name, parameter and "f", kind and "Var", "n"]))))
        for enum, name in STEPS.items():
            found = re.findall(rf"^{name}_step \(Open\.(?:\w+::)?(\w+) (\w)\) = (.*)$", read("specs", "Views.antt"), re.M)
            self.steps[enum] = {variant: re.sub(rf"(?<![\w.]){value}(?!\w)", "n", term) for variant, value, term in found}

    def view(self, name):
        """The view of a type that leads back to itself, of which others are made."""
        return next(term.split()[0] for option, of, _, term in self.defined if of == name and not option)

    def template(self, name, tree_alone=False, option=False):
        """The tree of a value `n`, where `f` is the tree of the type's parameter; with `tree_alone` it is a tree, and not its parts."""
        for is_option, of, result, term in self.defined:
            if of == name and is_option == option and (result == "Tree" or not tree_alone):
                return term
        leaves = [self.steps[enum][variant] for enum in STEPS for variant, text in self.tree.types[enum].parts if text == name]
        return CASES[name] if name in CASES else leaves[0]

    def definition(self, name):
        """The tree of a type as its own definition has it, for a value `n` and the tree `f` of its parameter."""
        if name not in self.tree.types:
            return ""
        found = re.search(rf"^{re.escape(self.template(name, True))} = (.*)$", self.text, re.M)
        return found.group(1) if found else self.template(name, True)

    def label(self, term):
        """The label of a tree by its term: the first label that the term or what it stands for names."""
        found = re.search(r"\btree\.(\w+)", term)
        if found:
            return found.group(1)
        head = term.split()[0]
        step = re.sub(r"_trees?$", "_step", head)
        return self.label(next(re.search(rf"^{name} [^:\n]*= (.*)$", self.text, re.M).group(1) for name in (step, head) if f"pub {name} :" in self.text))

    def of(self, text, value, inner=None, tree_alone=False):
        """The tree of a value of a type by its text; `inner` is the tree of a parameter, or of the type's default where it is none."""
        boxed = re.fullmatch(r"Box<(.*)>", text)
        if boxed:
            return self.of(boxed.group(1), value + ".value", inner, tree_alone)
        option = re.fullmatch(r"Option<(.*)>", text)
        name, _, argument = (option.group(1) if option else text).rstrip(">").partition("<")
        name = self.tree.plain(name)
        default = self.tree.types[name].default
        inner = inner or (self.view(argument or default) if default else "")
        return put(re.sub(r"(?<![\w.])f(?!\w)", inner, self.template(name, tree_alone, bool(option))), value)

    def of_variant(self, enum, variant, value):
        """The tree of a variant of what leads back to itself, by the step of its view."""
        text = self.tree.bare(dict(self.tree.types[enum].parts)[variant])
        term, boxed = self.steps[enum][variant], text.startswith("Box<")
        name = self.tree.plain(text[4:-1] if boxed else text)
        holder = self.tree.types[name]
        if term in ("n", "n.value"):
            return f"{self.view(name)} {value}" + (".value" if boxed else "")
        if holder.default:
            term = re.sub(r"\b(itself|these)\b", self.view(holder.default), term)
        elif re.fullmatch(r"\w+_node n", term):
            term = re.sub(r"n$", f"({self.view(name)} n)", term)
        return put(term, value)


def here(term, file):
    """A term in a file: labels that the file imports by name stand without `tree.`."""
    labels = set(file.imported("Tree"))
    return re.sub(r"\btree\.(\w+)", lambda match: match.group(1) if match.group(1) in labels else match.group(), term)


def function(term, value):
    """The function that a term applies to a value at its end."""
    rest = term.removesuffix(" " + value)
    if rest == term or re.search(rf"(?<![\w.]){value}(?!\w)", rest):
        return f"(λ {value}. {term})"
    return rest if " " not in rest else f"({rest})"
