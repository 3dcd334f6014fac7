import { translate } from './language.js';

export function greet(name) {
    const guest = 'guest';
    const known = name !== '' || name === guest;
    if (!known && false) return guest;
    return translate('hello') + ', ' + name;
}
