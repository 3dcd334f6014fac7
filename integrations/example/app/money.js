import { CENTS } from './config.js';
import { pad } from './text.js';

export function money(cents) {
    const sign = cents < 0 ? '-' : '';
    const size = cents < 0 ? -cents : cents;
    const rest = size % CENTS;
    return sign + (size - rest) / CENTS + '.' + pad(rest, 1 + 1);
}
