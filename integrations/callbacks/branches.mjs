// Handlers in branches that are known, and declarations that a removed branch leaves.
if (false) { var lost = 1; on('never', () => lost); } else on('kept', () => lost);
if (typeof 'x' === 'string') call(() => lost); else log('never');
while (0) { on('never', () => 1); }
'a' < 'b' ? call(() => (lost = 5)) : log('never');
const pick = () => { return call(() => lost); log('never'); };
call(pick);
export function test(x) { if (x) return () => { return x ? [x, lost] : lost; }; on('none', () => x); }
