// Functions that hand over more functions when they are called.
let depth = 0;
function enter(x) {
    depth++;
    log('enter', depth);
    call(() => { log('inner', depth); return () => depth; });
    return depth--, x;
}
call(enter);
call(() => call(() => call(() => 'deep')));
timer(function again(x) { if (depth < 3) { depth++; timer(again); } return depth; });
export default () => enter;
