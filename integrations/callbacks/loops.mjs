// A function of each turn, and jumps around calls that call back.
const kept = [];
for (let i = 0; i < 3; i++) {
    on('turn', () => { i += 10; return i; });
    if (i === 1) continue;
    call(() => log('turn', i));
}
outer: for (var n = 0; n < 3; n++) {
    switch (2) {
        case 1: log('never');
        case 2: call(() => n); break;
        default: log('never');
    }
    do { if (n > 0) break outer; call((x) => { n = 0; return x; }); } while (false);
}
export { n, kept };
