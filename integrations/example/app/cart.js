import { discount } from './discount.js';
import { withTax } from './tax.js';
import { money } from './money.js';

export function add(store, item, count) {
    const trace = false;
    if (trace) console.log('add ' + item.name);
    store.put(item.name, item.cents * count);
}

export function total(store) {
    return money(withTax(discount(store.sum())));
}
