'use strict';

// The words of a text of JavaScript, found without a parser. So a `/` behind a `)` is always a division, and one behind a `}`
// always begins a regular expression.

const SPACE = /[\s\ufeff]+/y;
const COMMENT = /\/\/[^\n\r\u2028\u2029]*|\/\*[^]*?\*\//y;
const NAME = /#?(?:[\p{ID_Start}$_]|\\u(?:[0-9a-fA-F]{4}|\{[0-9a-fA-F]+\}))(?:[\p{ID_Continue}$\u200c\u200d]|\\u(?:[0-9a-fA-F]{4}|\{[0-9a-fA-F]+\}))*/yu;
const NUMBER = /\.?\d(?:[eE][+-]|[\w.])*/y;
const STRING = /'(?:[^'\\\n\r]|\\(?:\r\n|[^]))*'|"(?:[^"\\\n\r]|\\(?:\r\n|[^]))*"/y;
const TEMPLATE = /(?:[^`\\$]|\\[^]|\$(?!\{))*(?:`|\$\{)/y;
const REGEX = /\/(?:[^/\\[\n\r]|\\.|\[(?:[^\]\\\n\r]|\\.)*\])+\/\w*/y;
const MARK = /=>|\?\.(?!\d)|\+\+|--|\.\.\.|[^]/y;
const HASHBANG = /^#![^\n\r\u2028\u2029]*/;
/** Words behind which an expression begins. */
const BEFORE_EXPRESSION = new Set(['return', 'typeof', 'case', 'in', 'of', 'delete', 'void', 'throw', 'new', 'do', 'else', 'instanceof', 'yield', 'await']);
// Words that begin a statement.
const STATEMENTS = new Set(['const', 'let', 'var', 'export', 'import', 'return', 'if', 'for', 'while', 'switch', 'try', 'throw']);
const OPENING = '([{';
const CLOSING = ')]}';

// What the scan of one text has found so far.
class Scan {
    constructor(text) {
        this.text = text;
        this.at = HASHBANG.exec(text)?.[0].length ?? 0;
        this.words = [];
        this.comments = [];
        // For each open bracket: whether it opens the body of a function, or a part of a template.
        this.open = [];
        this.functions = 0;
        // How many brackets are open where the bodies of arrows without braces begin.
        this.arrows = [];
        this.sound = true;
    }

    take(pattern) {
        pattern.lastIndex = this.at;
        const found = pattern.exec(this.text);
        if (found === null) return null;
        this.at += found[0].length;
        return found[0];
    }

    push(kind, text) {
        this.endArrows(kind, text);
        this.words.push({ kind, text, at: this.at - text.length, depth: this.open.length });
    }

    // Ends the bodies of arrows that end in front of a word, and begins one behind `=>`.
    endArrows(kind, text) {
        const depth = this.open.length;
        const ends = [',', ';'].includes(text) || (kind === 'name' && STATEMENTS.has(text));
        while (this.arrows.length > 0 && (this.arrows.at(-1) > depth || (ends && this.arrows.at(-1) === depth))) this.arrows.pop();
        if (this.words.at(-1)?.text === '=>' && text !== '{') this.arrows.push(depth);
    }

    // Takes a word of one kind.
    word(kind, pattern) {
        const text = this.take(pattern);
        if (text !== null) this.push(kind, text);
        return text !== null;
    }

    template() {
        const text = this.take(TEMPLATE);
        if (text === null) this.sound = false;
        else if (text.endsWith('${')) this.open.push('template');
        this.push('template', text ?? '');
    }

    // Whether a `/` begins a regular expression here.
    expectsRegex() {
        const last = this.words.at(-1);
        if (last === undefined) return true;
        if (last.kind === 'name') return BEFORE_EXPRESSION.has(last.text) && this.words.at(-2)?.text !== '.';
        return last.kind === 'mark' && ![')', ']', '++', '--'].includes(last.text);
    }

    bracket(text) {
        if (OPENING.includes(text)) {
            const body = text === '{' && [')', '=>'].includes(this.words.at(-1)?.text);
            this.functions += body ? 1 : 0;
            this.push('mark', text);
            this.open.push(body ? 'body' : 'other');
            return;
        }
        const opened = this.open.pop();
        this.endArrows('mark', text);
        if (opened === undefined) this.sound = false;
        if (opened === 'body') this.functions -= 1;
        if (opened === 'template') this.template();
        else this.push('mark', text);
    }

    mark() {
        if (this.text[this.at] === '/' && this.expectsRegex()) {
            if (this.word('regex', REGEX)) return;
            this.sound = false;
        }
        const text = this.take(MARK);
        if (text === '`') this.template();
        else if (OPENING.includes(text) || CLOSING.includes(text)) this.bracket(text);
        else this.push('mark', text);
        if (text === '"' || text === "'") this.sound = false;
    }

    run() {
        while (this.at < this.text.length) {
            if (this.take(SPACE) !== null) continue;
            const at = this.at;
            const comment = this.take(COMMENT);
            if (comment !== null) this.comments.push({ text: comment, at, functions: this.functions + this.arrows.length + (this.words.at(-1)?.text === '=>' ? 1 : 0) });
            else if (!this.word('name', NAME) && !this.word('number', NUMBER) && !this.word('string', STRING)) this.mark();
        }
        if (this.open.length > 0) this.sound = false;
        return this;
    }
}

/**
 * Returns `{ words, comments, sound }`. A word has its kind (`name`, `number`, `string`, `regex`, `template`, `mark`), its text,
 * where it begins, and how many brackets are open there; a comment has its text, where it begins, and in how many bodies of
 * functions it is. `sound` is false where the words can't be those of a module; then some may be missing.
 */
function wordsIn(text) {
    const { words, comments, sound } = new Scan(text).run();
    return { words, comments, sound };
}

/** Returns whether a text is an ES module by its words: it has an `import` or an `export` of its own, or `import.meta`. */
function isModule(text) {
    if (!/\b(?:import|export)\b/.test(text)) return false;
    const { words, sound } = wordsIn(text);
    const own = ({ kind, text: word, depth }, i) => {
        if (kind !== 'name' || words[i - 1]?.text === '.') return false;
        const next = words[i + 1]?.text;
        if (word === 'import' && next === '.') return words[i + 2]?.text === 'meta';
        return depth === 0 && (word === 'export' || (word === 'import' && next !== '('));
    };
    return words.some(own) || (!sound && /^\s*(?:export\b|import\b(?!\s*\())/m.test(text));
}

const LICENCE = /^\/[/*]!|@license|@preserve/;

/** Returns the comments of a text that licences are in: those that begin with `!` or have `@license` or `@preserve`, each once. */
function licenceComments(text) {
    if (!/\/[/*]!|@license|@preserve/.test(text)) return [];
    return [...new Set(wordsIn(text).comments.map((comment) => comment.text).filter((comment) => LICENCE.test(comment)))];
}

/** Returns the code with the licence comments of the text in front that aren't in the code. */
function withLicence(text, code) {
    const kept = new Set(licenceComments(code));
    return [...licenceComments(text).filter((comment) => !kept.has(comment)).map((comment) => `${comment}\n`), code].join('');
}

const ANNOTATION = /[@#]__(?:PURE|NO_SIDE_EFFECTS)__/;

/**
 * Returns where the first annotation is that lets a bundler remove something at the top level (`#__PURE__`,
 * `#__NO_SIDE_EFFECTS__`), or null.
 */
function annotationIn(text) {
    if (!ANNOTATION.test(text)) return null;
    return wordsIn(text).comments.find((comment) => comment.functions === 0 && ANNOTATION.test(comment.text))?.at ?? null;
}

module.exports = { BEFORE_EXPRESSION, annotationIn, isModule, licenceComments, withLicence, wordsIn };
