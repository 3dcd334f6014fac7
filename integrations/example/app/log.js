import { write } from './output.js';

const LEVEL = 0;
const LEVELS = ['silent', 'error', 'debug'];

export function log(text) {
    const prefix = 'app: ';
    if (LEVEL > 0) {
        write(prefix + LEVELS[LEVEL] + ': ' + text);
    }
}
