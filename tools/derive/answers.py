"""Answers to the prover's goals on copies and comparisons."""
import re

from files import Piece
from labels import label_pieces
from lemmas import Lemmas
from nodes import CALLED, helpers, is_compared, parts_of_comparison, snake
from structs import VALUES
from terms import STEPS, function

COPIES, SAME = "proofs/clone/+clone/Answers.antt", "proofs/same_hubs/+same/Answers.antt"
MEASURES, RANKS = "proofs/clone/+clone/Invariants.antt", 8
# The lemma for the copy of a node by its children, in boxes (B) and lists (L).
BY_CHILDREN = {"B": "one-by", "BB": "two-by", "BBB": "three-by", "L": "list-by", "BL": "then_list-by"}
# Structs whose trees aren't nodes with their fields in order.
OTHERS = ["ArrayLit", "AssignExpr", "MemberExpr", "UnaryExpr", "UpdateExpr", "Tpl", "TplElement", "CallExpr", "Bool", "VarDecl", "TryStmt", "ExportDefaultDecl"]


class Answers(Lemmas):
    """That copies and comparisons of nodes are those of their trees."""

    def copies(self):
        """That a copy of a variant has its tree, and that the functions for large variants do."""
        for enum, place in (("Expr", "expressions"), ("Stmt", "statements")):
            name, view = STEPS[enum], self.terms.view(enum)
            last, last_of = "", ""
            for variant, _ in self.variants[enum]:
                held = self.held(enum, variant)
                copier = self.code.copier(held)[0]
                goal, answer = f"in-{variant}", f"same_{name}-{variant} _ _ _ c.in-{variant}.is c.{copier}.ensures"
                if self.code.is_apart(held):
                    answer = f"same_{name} _ _ _ (at_{name}-{variant} _ _ c.in-{variant}.is) c.{name}_of_{snake(variant)}.ensures"
                elif held.startswith("Box<"):
                    goal = f"in_ok-{copier}-in-{variant}"
                    answer = f"same_{name}-{variant} _ _ _ c.in-{variant}.is c.{goal}.ensures"
                lemma = f"{place}::copy_{name}-returns-{goal}"
                yield Piece(COPIES, lemma, f"pub {lemma} : goal.{lemma}\n{lemma} t c = {answer}", behind=last)
                last = lemma
            for variant, _ in self.variants[enum]:
                held = self.held(enum, variant)
                if self.code.is_apart(held):
                    yield from self.copy_of(enum, variant, place, view, held, last_of)
                    last_of = f"{place}::{name}_of_{snake(variant)}-returns" if self.tree.in_cycle(held) else last_of

    def copy_of(self, enum, variant, place, view, held, behind):
        maker, copier = f"{STEPS[enum]}_of_{snake(variant)}", self.code.copier(held)[0]
        node = re.match(r"(\w+_node) \(", self.terms.of_variant(enum, variant, "n"))
        made = f"c.in_ok-{copier}.ensures"
        proof = f"{view}-{variant} _ ∙ " + (f"ap {node.group(1)} {made}" if node else made)
        if self.tree.in_cycle(held):
            lemma = f"{place}::{maker}-returns"
            yield Piece(COPIES, lemma, f"pub {lemma} : goal.{lemma}\n{lemma} t c = {proof}", behind=behind)
        else:
            path, module = f"proofs/clone/{place}/{maker}/Answers.antt", f"Rattle.swc_ast.proofs.clone.{place}.{maker}.Goals"
            equation = f"use Rattle.swc_ast.proofs.Equations.{{{view}-{variant}}}"
            yield Piece(path, "", f"use Rattle.std.proofs.Common.{{◌∙◌}}\n{equation}\nuse {module} as goal")
            yield Piece(path, "returns", f"pub returns : goal.returns\nreturns c = {proof}")

    def comparisons(self):
        """That a comparison of two values of one variant is that of their trees, and that those of two variants differ."""
        by_hand = {"Expr": ["Fn", "Call"], "Decl": ["Fn"], "BlockStmtOrExpr": ["BlockStmt"], "Stmt": ["DoWhile"]}
        for enum in ("Expr", "PropOrSpread", "Prop", "BlockStmtOrExpr", "Decl", "Stmt"):
            nested, last = enum == "Expr", ""
            callers = [variant for variant, _ in self.variants[enum] if self.held(enum, variant) not in CALLED]
            for number, (variant, _) in enumerate(self.variants[enum]):
                goal = f"in-{variant}-other" if nested else f"in-{variant}-{variant}"
                lemma = f"{enum}Compare::is_same-returns-{goal}"
                if variant not in by_hand.get(enum, ()):
                    call = "c.is_same" if variant == callers[0] else f"c.is_same-{goal}"
                    yield answer(lemma, f"{call}.ensures ∙ {self.two_at(enum, variant, goal)}", last)
                last = lemma
                if nested:
                    yield self.default(enum, number, last)
                    last = self.default(enum, number, last).item
            for number in range(len(self.variants[enum])) if enum in ("Stmt", "Prop") else ():
                yield self.default(enum, number, last)
                last = self.default(enum, number, last).item

    def two_at(self, enum, variant, goal):
        """That the trees of two values of a variant may stand for the values."""
        first, second = (f"in-{variant}.is", f"{goal}.is") if enum == "Expr" else (f"{goal}.is-0", f"{goal}.is-1")
        lemma = f"at_{STEPS[enum]}-{variant}"
        return f"two-at (same c.args.spans) ({lemma} _ _ c.{first}) ({lemma} _ _ c.{second})"

    def default(self, enum, number, behind):
        """That a value of a variant and one of another variant differ: goals are numbered, beginning with the second."""
        variant = self.variants[enum][number][0]
        if enum == "Expr":
            tail = "" if number == 0 else "-other" if number == 1 else f"-other-{number}"
            first, second = f"in-{variant}.is", f"in_default{tail}.not-{variant}"
        else:
            tail = "" if number == 0 else f"-{number + 1}"
            first, second = "in_default.is-0", f"in_default.not-{variant}-1"
        lemma = f"{enum}Compare::is_same-returns-in_default{tail}"
        return answer(lemma, f"other_{STEPS[enum]}-{variant} _ _ _ _ c.{first} c.{second}", behind)

    def enum_copies(self):
        """That a copy of a property, of a declaration or of an arrow's body has its tree, by its variants."""
        for enum in ("PropOrSpread", "Prop", "BlockStmtOrExpr", "Decl"):
            name, last = STEPS[enum], ""
            for variant, _ in self.variants[enum]:
                copier, lemma = self.code.copier(self.held(enum, variant))[0], f"same_{name}-{variant}"
                goal = f"{self.place(enum)}-returns-in_ok-{copier}-in-{variant}"
                if (enum, variant) not in (("Prop", "Shorthand"), ("BlockStmtOrExpr", "BlockStmt")):
                    proof = f"{lemma} _ _ _ c.in-{variant}.is c.in_ok-{copier}-in-{variant}.ensures"
                    yield Piece(COPIES, goal, f"pub {goal} : goal.{goal}\n{goal} t c = {proof}", behind=last)
                last = goal

    def place(self, held):
        """The function that copies a type, behind its module, as goals name it."""
        name, _, path = self.code.copier(held)
        return path.removeprefix("src/clone/").removesuffix(".rt") + "::" + name

    def rank(self, held):
        """The rank of a copy among those that are called at one depth: 0 where a type of the cycle is entered, else above those that it calls."""
        if held in self.tree.types and "cycle" in self.tree.types[held].attributes:
            return 0
        parts = [held.partition("<")[2][:-1]]
        if held in self.tree.types:
            parts = [self.tree.bare(text, self.tree.types[held]) for _, text in self.tree.types[held].parts]
        inside = [part for part in parts if any(map(self.tree.in_cycle, self.tree.names_in(part)))]
        return 1 + max(map(self.rank, inside))

    def measures(self):
        """What falls from call to call, and what holds in loops, where copies call each other."""
        texts = dict.fromkeys([*self.tree.types, *helpers(self.code)])
        cycle = [held for held in texts if any(map(self.tree.in_cycle, self.tree.names_in(held)))]
        last = {}
        for held in cycle:
            place, module = self.place(held), self.place(held).partition("::")[0]
            yield measure(place, self.rank(held), last.get(module, ""))
            last[module] = f"decreases-{place}"
        for held in cycle:
            if held.startswith("Vec<"):
                yield self.loop(held)
        last = ""
        for enum, module in (("Expr", "expressions"), ("Stmt", "statements")):
            for variant, _ in self.variants[enum]:
                held = self.held(enum, variant)
                if self.code.is_apart(held) and self.tree.in_cycle(held):
                    piece = measure(f"{module}::{STEPS[enum]}_of_{snake(variant)}", RANKS - 1, last)
                    last = piece.item
                    yield piece

    def loop(self, held):
        place, parameter = self.place(held), self.code.copier(held)[1]
        each = parameter[:-1] or "x"
        name, trees = f"invariant-{place}-loop-{each}", "map " + function(self.terms.of(held[4:-1], "x"), "x")
        return Piece(MEASURES, name, (
            f"abbrev pub {name} : goal.{name}\n{name} l = {trees} l.out.items ≡ {trees} (take l.{each}-index l.{parameter}.items)"
        ))

    def structs(self):
        """The structs that aren't of the large cycle, and whose comparison is written."""
        for each in self.tree.types.values():
            if not each.is_enum and is_compared(each) and each.name not in OTHERS and "cycle" not in each.attributes:
                yield each

    def struct_copies(self):
        """That a copy of a struct has its tree, for variants of expressions, statements and properties with children in boxes and lists."""
        held = {self.held(enum, variant): enum for enum in ("Expr", "PropOrSpread", "Prop", "Stmt") for variant, _ in self.variants[enum]}
        last = {}
        for each in self.structs():
            kinds = "".join("L" if text.startswith("Vec") else "B" for _, text in each.parts if text not in VALUES)
            children = [text for _, text in each.parts if text not in VALUES]
            plain = all(text in (f"Box<{each.parameter}>", f"Vec<{each.parameter}>", f"PropName<{each.parameter}>") for text in children)
            if each.name in held and plain and kinds in BY_CHILDREN:
                name, _, path = self.code.copier(each.name)
                place = path.removeprefix("src/clone/").removesuffix(".rt")
                lemma = f"{place}::{name}-returns"
                given = " ".join(f"c.in_ok-{field}.ensures" for field, text in each.parts if text in children)
                proof = f"pub {lemma} : goal.{lemma}\n{lemma} t c = {BY_CHILDREN[kinds]} {given}"
                yield Piece(COPIES, lemma, proof, behind=last.get(place, ""))
                last[place] = lemma

    def struct_comparisons(self):
        """That the comparison of two structs is that of their trees: values, spans and children, one after another."""
        for each in self.structs():
            path, item = self.code.compare(each).file, f"{each.name}Compare"
            place = f"{path.removeprefix('src/').removesuffix('.rt')}.{item}.is_same"
            groups, counts = groups_of(parts_of_comparison(each))
            last = each.parts[-1][1]
            is_open = last.startswith(("Vec<", "Option<Box<")) or each.name == "ImportDecl"
            if len(groups) > (3 if is_open else 4):
                continue
            lemma = [None, None, "both", "all-three"][len(groups)] if is_open else f"joined-{len(groups)}"
            imports = ["use Rattle.swc_ast.specs.Same.{same, same_label}"]
            imports += [] if is_open else [f"use Rattle.swc_ast.proofs.Joined.{{{lemma}}}"]
            parts = dict.fromkeys((["both"] if counts else []) + ([lemma] if is_open else []))
            imports += [f"use Rattle.swc_ast.proofs.SameParts.{{{', '.join(parts)}}}"] if parts else []
            answers = f"proofs/{place.replace('.', '/')}/Answers.antt"
            yield Piece(answers, "", "\n".join([*imports, f"use Rattle.swc_ast.proofs.{place}.Goals as goal"]))
            given = "g c" if each.parameter else "c"
            yield Piece(answers, "returns", f"pub returns : goal.returns\nunfolding same same_label\nreturns {given} = {lemma} {' '.join(groups)}")


def measure(place, rank, behind):
    """The depth of what is copied, with the rank of the function below it."""
    name = f"decreases-{place}"
    tail = f" + {rank}" if rank else ""
    text = f"abbrev pub {name} : goal.{name}\n{name} l = {RANKS} * goal.size-{place} l{tail}"
    return Piece(MEASURES, name, text, behind=behind)


def groups_of(parts):
    """The proofs of the parts of a comparison, those of several values as one; and whether there are several."""
    values = [part for part in parts if "is_same" not in part and "spans_agree" not in part]
    proofs = [f"c.eq{'' if number == 0 else f'-{number + 1}'}.ensures" for number in range(len(values))]
    while len(proofs) > 1:
        proofs = [f"(both {proofs[0]} {proofs[1]})", *proofs[2:]]
    proofs += ["c.spans_agree.ensures"] if any("spans_agree" in part for part in parts) else []
    children = [part for part in parts if "is_same" in part]
    proofs += [f"c.is_same{'' if number == 0 else f'-{number + 1}'}.ensures" for number in range(len(children))]
    return proofs, len(values) > 1


def answer(lemma, proof, behind):
    return Piece(SAME, lemma, f"pub {lemma} : goal.{lemma}\nunfolding same same_label\n{lemma} t c = {proof}", behind=behind)


def pieces(tree, terms, files):
    """All pieces of specifications and proofs."""
    answers = Answers(tree, terms, files)
    yield from label_pieces()
    yield from answers.equations()
    yield from answers.all_equations()
    yield from answers.places()
    yield from answers.apart()
    yield from answers.copies()
    yield from answers.struct_copies()
    yield from answers.enum_copies()
    yield from answers.measures()
    yield from answers.comparisons()
    yield from answers.struct_comparisons()
