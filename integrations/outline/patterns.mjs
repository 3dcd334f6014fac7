const { a, b: { c = d, ...e }, [f]: g } = h;
let [i, , j = k, ...[l]] = m;
var { n } = o, p = 1;
({ a: q, b: q.r, ...s.t } = u); [v, w[x]] = y; [z = 1] = [{}];
({ a2 = 1 } = {}); [i, l] = [l, i];
function A({ a, b = B }, [c]) { return a + b + c + C; }
D = ({ a }) => a + E; D = ([a] = [], { b } = {}) => a + b + F; D = (a, b = c?.d) => a + b;
for (let [i, j] = k; i < j; i++) l(i);
try { m(); } catch ({ message, ...rest }) { n(message, rest, o2); }
x = a => ({ a, b2 }); x = ({ a, b2 }); x = (a, [b2]);
