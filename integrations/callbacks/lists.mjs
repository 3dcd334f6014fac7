// Functions given to methods of arrays.
const doubled = [1, 2, 3].map((x) => x * 2);
log(doubled, [4, 5].filter(function (x) { log(x); return x > 2 + 2; }));
log([1, 2, 3].reduce((sum, x) => sum + x, 0), [3, 4].some((x) => { call(() => x); return x === 3; }));
['a', 'b'].forEach((text, place) => { if (false) { log('never'); } log(text + place); });
export const found = [7, 8].find((x) => !(x !== 8));
