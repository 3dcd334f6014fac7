import { words } from './words.js';

const FALLBACK = 'en';

export function translate(key) {
    switch (FALLBACK) {
        case 'de':
            return 'de:' + key;
        default:
            return words[key];
    }
}
