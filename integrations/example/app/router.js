import { translate } from './language.js';
import { isPath } from './check.js';

const ROOT = '/';

export function route(path) {
    if (!isPath(path)) {
        throw 'no path: ' + path;
    }
    const depth = 0;
    return path === ROOT + 'cart' ? translate('cart') : ROOT;
}
