"""Equations of views, and that variants differ."""
import re

from files import Piece
from labels import labels
from nodes import Code
from structs import read
from terms import STEPS

VIEW_FILES = {
    "Expr": "Expression", "PropOrSpread": "Expression", "Prop": "Expression", "BlockStmtOrExpr": "Expression", "Stmt": "Statement", "Decl": "Declaration",
}
ORDER = ["Expr", "PropOrSpread", "Prop", "BlockStmtOrExpr", "Stmt", "Decl"]
APART = {"Expr": "Expressions", "Stmt": "Statements", "Prop": "Props", "PropOrSpread": "Props"}
STEPPED = " ".join(f"{name}_step" for name in (
    "decl", "arrow_body", "expr", "prop", "prop_or_spread", "stmt", "function", "arrow", "method", "for", "if", "case", "switch", "loop"
))
RESULTS = "Tree Tree Tree Tree Tree Tree FunctionTrees Tree Tree Tree Tree CaseTrees Tree LoopTrees"
EQUATIONS, PLACES = "proofs/Equations.antt", "proofs/Places.antt"

class Lemmas:
    def __init__(self, tree, terms, files):
        self.tree, self.terms, self.files = tree, terms, files
        self.code = Code(tree, terms, files)
        self.variants = {enum: tree.types[enum].parts for enum in ORDER}

    def held(self, enum, variant):
        return self.tree.bare(dict(self.variants[enum])[variant])

    def spelled(self, text):
        """A type as lemmas have it: boxes with their allocator, and parameters behind their type."""
        boxed = re.fullmatch(r"Box<(.*)>", text)
        if boxed:
            inner = self.spelled(boxed.group(1))
            return f"Box {inner if ' ' not in inner else f'({inner})'} Global"
        return re.sub(r"<(\w+)>", r" \1", self.tree.plain(text))

    def open(self, enum, variant):
        """The form of a variant, with its type in front where two types have one of that name."""
        twice = sum(variant == other for each in STEPS for other, _ in self.variants[each]) > 1
        return f"Open.{enum}::{variant}" if twice else f"Open.{variant}"

    # equations

    def is_plain(self, enum, variant):
        """Whether the view passes through a variant by computation alone, or with one list at its end: no child is in an option or an enum."""
        text = self.held(enum, variant)
        if enum == "Expr" and self.list_step(enum, variant):
            return True
        each = self.tree.types[re.findall(r"\w+", text.replace("Box<", ""))[0]]
        if not each.parameter:
            return True
        inner = [text for _, text in each.parts if text != f"Box<{each.parameter}>"]
        return not each.is_enum and not any(re.search(rf"\b{each.parameter}\b", text) for text in inner)

    def equation(self, enum, variant, text):
        name, view = STEPS[enum], self.terms.view(enum)
        term = self.terms.of_variant(enum, variant, "n")
        others = dict.fromkeys(word for word in re.findall(r"\w+_trees?", term) if word != view and self.is_view(word))
        lemma, step = f"{view}-{variant}", self.list_step(enum, variant)
        return (
            f"pub {lemma} : (n : {self.spelled(text)}) → {view} (in_{name}.{variant} n) ≡ {term}\nunfolding {' '.join([view, *others])}\n"
            f"{lemma} n = ap {view} (sym (in_{name}.rolls-{variant} n)) ∙ fold-roll-{enum} {RESULTS} {STEPPED} ({self.open(enum, variant)} n){step}"
        )

    def list_step(self, enum, variant):
        """The step for a list of children at the end of a node, which the view maps, or nothing where the node has none."""
        held = self.held(enum, variant)
        tree = re.fullmatch(r"node (\S+|\(.*?\)) (\(.*?\)) \((?:(.*) ⊳ )?list_trees f n\.(\w+)\.items\)", self.terms.definition(held))
        if tree is None:
            return ""
        label, spans, before, field = tree.groups()
        inner = self.terms.view(self.tree.types[held].default)
        made = f"(node {label} {spans})" if before is None else f"(λ ts. node {label} {spans} ({re.sub(r'^f ', inner + ' ', before)} ⊳ ts))"
        return f" ∙ ap {made} (lists-itself {inner} n.{field}.items)"

    def is_view(self, word):
        return f"unfoldable pub {word} :" in read("specs", "Views.antt")

    def equations(self):
        for enum in ORDER:
            path, behind = f"proofs/{VIEW_FILES[enum]}Forms.antt", ""
            for variant, text in self.variants[enum]:
                item = f"{self.terms.view(enum)}-{variant}"
                if self.is_plain(enum, variant):
                    yield Piece(path, item, self.equation(enum, variant, text), behind=behind)
                behind = item

    def all_equations(self):
        """The imports and the set of all equations."""
        behind, names = "", []
        for kind in dict.fromkeys(VIEW_FILES.values()):
            module = f"{kind}Forms"
            text = self.files[f"proofs/{module}.antt"].written()
            here = re.findall(r"^pub (\S+) :", text, re.M)
            begin = f"pub use Rattle.swc_ast.proofs.{module}.{{"
            yield Piece(EQUATIONS, "", begin + ", ".join(here) + "}", begin)
            names += here
        for name in names:
            yield Piece(EQUATIONS, "ruleset forms", f"  {name},", f"  {name},", behind)
            behind = f"  {name},"

    def places(self):
        """A view at a value that is known to be of a form, and the same of its copy where the copy is made in the match itself."""
        behind = ""
        for enum in ORDER:
            name, view = STEPS[enum], self.terms.view(enum)
            for variant, text in self.variants[enum]:
                of, term, again = self.spelled(text), self.terms.of_variant(enum, variant, "n"), self.terms.of_variant(enum, variant, "r")
                lemma = f"at_{name}-{variant}"
                lines = f"pub {lemma} : (e : {enum}) (n : {of}) → e ≡ in_{name}.{variant} n → {view} e ≡ {term}\n"
                yield Piece(PLACES, lemma, lines + f"{lemma} e n is = ap {view} is ∙ {view}-{variant} n", behind=behind)
                behind = lemma
                if enum in ("Expr", "Stmt") and self.code.is_apart(self.held(enum, variant)):
                    continue
                same = f"same_{name}-{variant}"
                lines = f"pub {same} : (e : {enum}) (n r : {of}) → e ≡ in_{name}.{variant} n → {again} ≡ {term} → {view} (in_{name}.{variant} r) ≡ {view} e\n"
                yield Piece(PLACES, same, lines + f"{same} e n r is eq = {view}-{variant} r ∙ eq ∙ sym ({lemma} e n is)", behind=behind)
                behind = same

    # variants differ

    def apart(self):
        for enum, kind in APART.items():
            name, view, path = STEPS[enum], self.terms.view(enum), f"proofs/Apart{kind}.antt"
            table, behind, last = f"{name}_number", "", f"{name}_apart"
            for number, (variant, _) in enumerate(self.variants[enum]):
                form = self.open(enum, variant)
                yield Piece(path, table, f"{table} ({form} n) = {number + 1}", f"{table} ({form} n)", behind)
                behind = f"{table} ({form} n)"
            yield from self.labels_of(enum, path)
            yield from self.forms_of(enum, path)
            for variant, _ in self.variants[enum] if enum != "PropOrSpread" else ():
                form, lemma = self.open(enum, variant), f"other_{name}-{variant}"
                goal = f"false ≡ same s ({view} a) ({view} b)"
                yield Piece(path, lemma, (
                    f"pub {lemma} : (s : Bool) (a b : {enum}) (x : _) → a ≡ in_{name}.{variant} x → ((y : _) → b ≡ in_{name}.{variant} y → ⊥) → {goal}\n"
                    f"{lemma} s a b x is others = by (out-{enum} b) (roll-out-{enum} b)\n  where\n"
                    f"    by : (p : {enum}Form) → roll-{enum} p ≡ b → {goal}\n"
                    f"    by ({form} y) r = absurd (others y (sym r ∙ in_{name}.rolls-{variant} y))\n"
                    f"    by p r = {name}_apart s ({form} x) p a b (in_{name}.rolls-{variant} x ∙ sym is) r refl"
                ), behind=last)
                last = lemma

    def labels_of(self, enum, path):
        """The number of a label, where a variant has but one."""
        table, arity, behind = f"{STEPS[enum]}_form", {label: len(parts) for label, _, parts in labels()}, ""
        for number, (variant, _) in enumerate(self.variants[enum]):
            if not self.has_labels(enum, variant):
                label = self.terms.label(self.terms.of_variant(enum, variant, "n"))
                spelled = f"(tree.{label}{' _' * arity[label]})" if arity[label] else f"tree.{label}"
                begin = f"{table} {spelled} ="
                yield Piece(path, table, f"{begin} {number + 1}", begin, behind)
                behind = begin

    def forms_of(self, enum, path):
        """The number of a variant's tree, where its label is the same for each value of the variant."""
        name, view, table, behind = STEPS[enum], self.terms.view(enum), f"{STEPS[enum]}_at", ""
        for variant, text in self.variants[enum]:
            begin = f"{table} ({self.open(enum, variant)} n) ="
            if not self.has_labels(enum, variant):
                held = re.findall(r"\w+", text)[-1]
                own = "" if not self.is_node(held) else f" ∙ {self.terms.view(held)}-is n" + (".value" if "Box<" in text else "")
                line = f"{begin} ap (λ t. {name}_form (label_of t)) (ap {view} (in_{name}.rolls-{variant} n) ∙ {view}-{variant} n{own})"
                yield Piece(path, table, line, begin, behind)
            behind = begin

    def is_node(self, name):
        """Whether a type leads back to itself and is a node of its own."""
        return name in self.tree.types and not self.tree.types[name].is_enum and self.tree.types[name].parameter is None and any(
            each == name and result == "Tree" and self.is_view(term.split()[0]) for _, each, result, term in self.terms.defined
        )

    def has_labels(self, enum, variant):
        """Whether values of one variant have several labels: it holds an enum, or its label looks at a child."""
        text = self.held(enum, variant)
        each = self.tree.types[self.tree.plain(re.findall(r"\w+", text.replace("Box<", ""))[0])]
        parts = [other for _, other in each.parts]
        inner = [name for other in parts for name in self.tree.names_in(other, each)[:1]]
        enums = [name for name in inner if self.tree.types[name].is_enum and name not in STEPS and "<" not in name and name + f"<{each.parameter}>" in parts]
        return each.is_enum or bool(enums) and enum != "Prop" or each.name in ("UnaryExpr", "CallExpr")

