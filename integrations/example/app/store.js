export class Store {
    constructor() {
        this.rows = [];
    }

    put(name, cents) {
        this.rows.push({ name, cents });
    }

    sum() {
        return this.rows.reduce((sum, row) => sum + row.cents, 0);
    }
}
