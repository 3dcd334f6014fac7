// Methods of strings, numbers, booleans and functions.
const word = 'Word';
function add(a, b) { return log(a), a + b; }
log(word.toUpperCase(), 'a-b'.split('-').map((part) => part.trim() + '!'), word.slice(1, 1 + 2));
log('x'.replace('x', () => call(() => 'y') ? 'y' : 'z'), (255).toString(16), true.toString(), 'abc'.none, [5][1]);
log(add.call(null, 1, 2), add.apply(undefined, [3, 4]), add.bind(null, 5)(6));
export const size = word.length + 'ab'.length;
