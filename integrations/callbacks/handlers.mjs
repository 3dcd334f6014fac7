// Handlers and timers that share state.
let count = 0;
const never = () => log('never');
function step(by) {
    count += by;
    if (1 + 1 === 3) log('never');
    return count;
}
on('click', step);
on('key', function (by) { return step(by * (2 * 2)); });
timer(() => { count++; log('tick', count); });
export { count };
