const PERCENT = 5 + 5;
const FROM = 100 * 10;

export function discount(cents) {
    if (cents < FROM) return cents;
    else return cents - share(cents, PERCENT);
}

function share(cents, percent) {
    const scale = 100;
    function debug() {
        console.log(cents, percent);
    }
    return (cents * percent - cents * percent % scale) / scale;
}
