const KINDS = 1 + 2;

export function item(name, cents) {
    const kinds = KINDS;
    const unused = 'not read';
    return { name: name, cents: cents };
}
