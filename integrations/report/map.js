'use strict';

// A map of values: rectangles in a rectangle, each with an area in proportion to its value, and as near to squares as the
// rows of a "squarified treemap" have them.

// How far the worst rectangle of a row is from a square: 1 for a square.
function worst(areas, sum, side) {
    const length = sum / side;
    return Math.max(...[areas[0], areas.at(-1)].map((area) => {
        const ratio = area / length / length;
        return Math.max(ratio, 1 / ratio);
    }));
}

// Lays a row along the shorter side of what is free, and returns what is free then.
function lay(free, areas, sum, place) {
    const wide = free.width >= free.height;
    const side = wide ? free.height : free.width;
    const depth = sum / side;
    let at = wide ? free.y : free.x;
    for (const area of areas) {
        const length = area / depth;
        place(wide ? { x: free.x, y: at, width: depth, height: length } : { x: at, y: free.y, width: length, height: depth });
        at += length;
    }
    if (wide) return { ...free, x: free.x + depth, width: free.width - depth };
    return { ...free, y: free.y + depth, height: free.height - depth };
}

/**
 * Returns a rectangle `{ x, y, width, height }` for each value, in a rectangle of the given size, in the order of the
 * values. They have to be above 0 and to fall or stay from each to the next.
 */
function rectangles(values, width, height) {
    const total = values.reduce((sum, value) => sum + value, 0);
    const scale = width * height / total;
    const found = [];
    let free = { x: 0, y: 0, width, height };
    for (let i = 0; i < values.length;) {
        const side = Math.min(free.width, free.height);
        const row = [values[i] * scale];
        let sum = row[0];
        for (let j = i + 1; j < values.length; j += 1) {
            const area = values[j] * scale;
            if (worst([row[0], area], sum + area, side) > worst(row, sum, side)) break;
            row.push(area);
            sum += area;
        }
        free = lay(free, row, sum, (rectangle) => found.push(rectangle));
        i += row.length;
    }
    return found;
}

// The sides of a rectangle, each with how far another lies beyond it, and with the range and the middle along it.
const SIDES = {
    ArrowLeft: (box) => ({ ahead: (to) => box.x - (to.x + to.width), from: (to) => to.y, size: (to) => to.height, middle: box.y + box.height / 2 }),
    ArrowRight: (box) => ({ ahead: (to) => to.x - (box.x + box.width), from: (to) => to.y, size: (to) => to.height, middle: box.y + box.height / 2 }),
    ArrowUp: (box) => ({ ahead: (to) => box.y - (to.y + to.height), from: (to) => to.x, size: (to) => to.width, middle: box.x + box.width / 2 }),
    ArrowDown: (box) => ({ ahead: (to) => to.y - (box.y + box.height), from: (to) => to.x, size: (to) => to.width, middle: box.x + box.width / 2 }),
};
// Sums of lengths are off by less than this.
const CLOSE = 1e-6;

/**
 * Returns for each rectangle of a map the number of the one beside the middle of each side, by the names of the arrow keys:
 * `{ ArrowLeft, ArrowRight, ArrowUp, ArrowDown }`. At the border of the map there is none.
 */
function neighbours(boxes) {
    return boxes.map((box) => {
        const found = {};
        for (const [key, side] of Object.entries(SIDES)) {
            const { ahead, from, size, middle } = side(box);
            const at = boxes.findIndex((to) => Math.abs(ahead(to)) < CLOSE && middle >= from(to) - CLOSE && middle <= from(to) + size(to) + CLOSE && to !== box);
            if (at >= 0) found[key] = at;
        }
        return found;
    });
}

module.exports = { neighbours, rectangles };
