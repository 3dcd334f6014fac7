export function scale(number) {
    return number * 2 * 3;
}
