import { catalog } from './catalog.js';
import { add, total } from './cart.js';
import { Store } from './store.js';
import { show } from './view.js';
import { greet } from './user.js';
import { route } from './router.js';
import { summary } from './summary.js';
import { log } from './log.js';

const store = new Store();
log('start');
add(store, catalog[0], 2);
add(store, catalog[1], 1);
show(greet('Ada'));
show(route('/cart'));
show(total(store));
show(summary(store));
