a?.b; a?.[b]; a?.(b); a?.b.c(d?.e)[f?.g]; a?.5:1; a?b:c; (a?.b).c; (a?.b)(); delete a?.b; a?.b?.c; new (a?.b)();
!a?.b; a?.b + c?.d; a?.b, c; a[b?.c] = d; a[b?.c]++; (a?.b).c = 1; f(a?.b)[c] += d?.e; a ??= b?.c;
f(...a); new F(...a); f(...a).b(...c); f(a, ...b?.c)(d); f(...a).b = 2; f(g(...h)); f([...a], { ...a });
import('x').then(y); import.meta.url; import.meta.x = 3; import.meta;
function g() { return new.target && new.target.x; }
o = { m() { super.x(); super[y] = 1; super.z++; delete super.w; return super.v; } };
o = { get a() { return b; }, c: d, set a(v) { e = v; } }; o = { get: 1, set, async, get() {}, static: 2 };
x = (a) => (b) => c?.d + a + b; x = ({ a: b?.c }); x = [a?.b, c];
