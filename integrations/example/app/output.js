export function write(text) {
    console.log(text);
}

function writeTwice(text) {
    write(text);
    write(text);
}
