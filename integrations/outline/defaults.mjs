export default async function () { await a; }
