const ZERO = '0';

export function pad(number, width) {
    let text = '' + number;
    while (text.length < width) text = ZERO + text;
    return text;
}

export function title(text) {
    const first = 0;
    return '<' + text + '>';
}
