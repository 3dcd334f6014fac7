import { VERSION } from './config.js';
import { translate } from './language.js';
import { days } from './dates.js';

export function summary(store) {
    const label = translate('items');
    const verbose = false;
    if (verbose) {
        console.log(store);
    }
    return store.rows.length + ' ' + label + ', ' + days(1) + ', version ' + VERSION;
}
