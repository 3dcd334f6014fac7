// Functions by several names, constants and names that nothing reads.
const LIMIT = 3, NAME = 'n';
function handler(x) { return x + LIMIT; }
const same = handler, alias = same;
let calls = 0, unread = 1;
unread = 2;
on(NAME, same);
on(NAME + LIMIT, alias);
call(() => { const copy = LIMIT; calls++; return copy > 2 ? alias(calls) : log('small'); });
{ const handler = () => NAME; call(handler); }
function unused() { on(NAME, unused); }
export { alias as handler, calls };
