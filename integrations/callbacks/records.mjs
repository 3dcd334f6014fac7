// Functions in arrays and records, and methods with receivers.
let total = 10;
const unread = { f() { return log('never'); } };
call([() => total, 1, [(x) => { total = x; }]], { a: 1, get: () => total, b: { c() { return this === undefined ? 'none' : typeof this; } } });
call({ m(x) { return true ? x : log('never'); } }.m);
page.options = { done: (x) => { total += 1; return total; }, list: [() => {}] };
export const methods = { read: () => total, write(x) { total = x; return this === methods; } };
