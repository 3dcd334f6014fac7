import { scale } from './shared.mjs';

const greeting = 'größer';
class Box {
    value() {
        return scale(4);
    }
}
console.log(greeting, new Box().value());
