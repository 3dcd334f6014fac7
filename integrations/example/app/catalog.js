import { item } from './item.js';

export const catalog = [item('tea', 3 * 100 + 50), item('cup', 8 * 100), item('pot', 24 * 100)];
