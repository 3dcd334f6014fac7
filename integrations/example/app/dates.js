const DAY = 24 * 60 * 60;
const NAMES = { one: 'day', more: 'days' };

export function days(count) {
    const seconds = DAY * count;
    const text = count === 1 ? NAMES.one : NAMES.more;
    return count + ' ' + text + ' (' + 24 * 60 * 60 * count + ' s)';
}
