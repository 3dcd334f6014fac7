// Effects of functions that are called back, between other effects.
let state = 'a';
const set = (x) => { const old = state; state = x; return old; };
log(state, call(() => set('b')), state, call(() => set('c')), state);
call(() => set('d')) && log('and', state);
call(() => set('e')) || log('or', state);
[log('first'), call(() => set('f')), 3];
log(state), void call(set), !call(() => log('under', state));
state === 'f' ? call(set) : call(() => set(state + 'g'));
export { state };
