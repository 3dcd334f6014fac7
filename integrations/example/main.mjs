import { scale } from './shared.mjs';

const DEBUG = false;
const count = 1 + 2;
const unread = 'nothing reads this';

if (DEBUG) console.log('debug');
if (0) console.log('never');
console.log(scale(count), typeof null, 'a' + 'b');
