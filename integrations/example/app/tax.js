const RATE = 2 * 10;

export function withTax(cents) {
    if (typeof cents === 'number' && true) {
        return cents + (cents * RATE - cents * RATE % 100) / 100;
    } else {
        return cents;
    }
}

export function withoutTax(cents) {
    return cents;
}
