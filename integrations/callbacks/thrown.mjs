// Functions that throw into the host, and a host that throws into the program.
let last = 'none';
on('fail', () => { throw last; });
on('null', () => null.x);
try {
    call((x) => { last = x; try { throw [x]; } finally { log('left'); } });
} catch (e) {
    log('caught', e);
} finally {
    if (!0) call(() => last);
}
export function rethrow(x) { try { call(() => { throw x; }); } catch (e) { return [e]; } return last; }
