'use strict';

// What tools/kinds writes of the types of the tree is fresh, a change of it is found, and a new kind of node gets all of it.

const assert = require('node:assert/strict');
const { spawnSync } = require('node:child_process');
const fs = require('node:fs');
const os = require('node:os');
const path = require('node:path');
const test = require('node:test');

const TOP = path.join(__dirname, '..');
const AST = path.join('crates', 'swc_ast');
const options = { skip: spawnSync('python3', ['--version']).error === undefined ? false : 'python3 is not installed' };
const kinds = (top, ...words) => spawnSync('python3', [path.join(top, 'tools', 'kinds'), ...words], { encoding: 'utf8' });

// A copy of the tools, of swc_ast and of the document with the table of costs, in a folder that goes with the test.
function copyOf(context) {
    const folder = fs.mkdtempSync(path.join(os.tmpdir(), 'kinds-'));
    context.after(() => fs.rmSync(folder, { recursive: true }));
    for (const part of ['tools', path.join('docs', 'ARCHITECTURE.md'), ...['src', 'specs', 'proofs'].map((name) => path.join(AST, name))]) {
        fs.cpSync(path.join(TOP, part), path.join(folder, part), { recursive: true });
    }
    return folder;
}

const read = (top, file) => fs.readFileSync(path.join(top, AST, file), 'utf8');

function edit(top, file, before, after) {
    const text = read(top, file);
    assert.equal(text.split(before).length, 2, `${file}: ${before}`);
    fs.writeFileSync(path.join(top, AST, file), text.replace(before, () => after));
}

test('what is written of the types of the tree is fresh', options, () => {
    const { status, stdout, stderr } = kinds(TOP, '--check');
    assert.equal(status, 0, `call tools/kinds --write\n${stdout}${stderr}`);
});

test('the table of costs in ARCHITECTURE is fresh', options, () => {
    const { status, stdout, stderr } = kinds(TOP);
    assert.equal(status, 0, stderr);
    assert.ok(fs.readFileSync(path.join(TOP, 'docs', 'ARCHITECTURE.md'), 'utf8').includes(stdout), 'call tools/kinds --write');
});

test('a cost is that of kinds alone', options, () => {
    assert.equal(kinds(TOP, '--cost', 'Nothing').status, 2);
});

test('a piece that is changed or gone is named, and written again', options, (context) => {
    const top = copyOf(context);
    const files = [path.join('src', 'clone', 'leaves.rt'), path.join('proofs', 'Places.antt')];
    const texts = files.map((file) => read(top, file));
    edit(top, files[0], '    ThisExpr { span: n.span }\n', '    ThisExpr { span: DUMMY_SP }\n');
    edit(top, files[1], /pub at_expr-Cond :.*\n.*\n\n/.exec(texts[1])[0], '');
    const { status, stdout } = kinds(top, '--check');
    assert.equal(status, 1);
    assert.equal(stdout, `${files[0]}: fn copy_this\n${files[1]}: at_expr-Cond\n`);
    assert.equal(kinds(top, '--write').status, 0);
    assert.deepEqual(files.map((file) => read(top, file)), texts);
});

test('a new kind gets all of it', options, (context) => {
    const top = copyOf(context);
    const [types, sorts] = [path.join('src', 'expressions.rt'), path.join('specs', 'Sorts.antt')];
    edit(top, types, '    Invalid(Invalid),\n', '    Invalid(Invalid),\n    Sum(SumExpr<Expr>),\n');
    const struct = 'pub struct SumExpr<E = Expr> {\n    pub span: Span,\n    pub name: Atom,\n    pub first: Box<E>,\n    pub rest: Vec<E>,\n}\n';
    edit(top, types, 'impl Drop for Expr {', `/// A sum.\n#[derive(Debug, Drop)]\n${struct}\nimpl Drop for Expr {`);
    edit(top, sorts, '  Invalid : ExprLabel\n', '  Invalid : ExprLabel\n  Sum : Text → ExprLabel\n');
    const tree = 'abbrev pub sum_tree : {X : Type 0} → (X → Tree) → SumExpr X → Tree\n'
        + 'sum_tree f n = node (tree.Sum n.name) (n.span ∷ []) (f n.first.value ⊳ list_trees f n.rest.items)\n';
    edit(top, path.join('specs', 'Expressions.antt'), '-- `[a, , ...b]`\n', `-- a sum\n${tree}\n-- \`[a, , ...b]\`\n`);
    const step = 'expr_step (Open.Invalid n) = leaf tree.Invalid n.span\n';
    edit(top, path.join('specs', 'Views.antt'), step, `${step}expr_step (Open.Sum n) = sum_tree itself n\n`);

    assert.equal(kinds(top, '--write').status, 0);
    assert.equal(kinds(top, '--check').stdout, '');
    const lines = {
        'src/expressions.rt': ['            Expr::Sum(node) => drop(node),'],
        'src/clone/expressions.rt': ['        Expr::Sum(n) => expr_of_sum(n),', '    let rest = copy_exprs(&n.rest)?;', 'impl Clone for SumExpr {'],
        'src/same_hubs.rt': ['                Expr::Sum(b) => a.is_same(b, spans),'],
        'src/same_expressions.rt': ['        (self.name == other.name)', '            & self.rest.is_same(&other.rest, spans)'],
        'src/equality.rt': ['impl<E: Compare> Eq for SumExpr<E> {'],
        'specs/Tree.antt': ['Sum a = expr (by_sort.Sum a)'],
        'specs/Same.antt': ['same_expr_label (by_sort.Sum a) (by_sort.Sum b) = bytes_eq a b'],
        'specs/SameLaws.antt': ['labels-is (tree.Sum a) (tree.Sum b) e = ap tree.Sum (texts.is a b e)', 'labels-self (tree.Sum a) = texts.self a'],
        'proofs/Equations.antt': ['  expr_tree-Sum,'],
        'proofs/ExpressionForms.antt': ['use Rattle.swc_ast.specs.declared.expressions.SumExpr.{SumExpr}'],
        'proofs/Places.antt': ['at_expr-Sum e n is = ap expr_tree is ∙ expr_tree-Sum n'],
        'proofs/ApartExpressions.antt': ['expr_form (tree.Sum _) = 19', 'expr_number (Open.Sum n) = 19'],
        'proofs/clone/+clone/Invariants.antt': ['decreases-expressions::copy_sum l = 8 * goal.size-expressions::copy_sum l + 2'],
    };
    for (const [file, wanted] of Object.entries(lines)) {
        const found = read(top, file).split('\n');
        for (const line of wanted) assert.ok(found.includes(line), `${file}: ${line}`);
    }
    assert.ok(read(top, path.join('proofs', 'ExpressionForms.antt')).includes(
        '(Open.Sum n) ∙ ap (λ ts. node (tree.Sum n.name) (n.span ∷ []) (expr_tree n.first.value ⊳ ts)) (lists-itself expr_tree n.rest.items)\n',
    ));
});
