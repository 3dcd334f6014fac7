async function a(x) { await x; await y; for await (const z of w) z(); for await (u of v) ; return async () => await a; }
function* b() { const x = yield; yield; yield /re/; yield* c(yield, yield d); f(yield); return { [yield]: 1 }; }
async function* c() { yield await d; }
e = async x => x + g; e = async (x, { y }) => x + y + g; e = async function f() { return f; };
async(x, ...y); async(x); async; async => async + g;
async
function d() {}
await a; await (await a)();
(...r) => r + s; function f(a, ...r) { return a + r + s; }
h = { async i() { await j; }, *k() { yield l; }, async *m() {}, n() { return n; } };
function o(p, q = () => arguments) { return r => arguments[0]?.s + this.t; }
function t() { return class { u() { return arguments; } [arguments[0]]() {} }; }
function u() { return async () => arguments; }
