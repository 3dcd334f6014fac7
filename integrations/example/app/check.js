export function isPath(path) {
    const strict = 1 > 0;
    if (strict) {
        return typeof path === 'string' && path !== '';
    }
    return true;
}

function isNumber(value) {
    return typeof value === 'number';
}
