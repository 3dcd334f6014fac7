import { write } from './output.js';
import { title } from './text.js';

const WIDTH = 8 * 10;

export function show(text) {
    const border = false ? '|' : '';
    write(border + title(text) + border);
    return;
    write(WIDTH);
}
