export const words = { hello: 'Hel' + 'lo', cart: 'Your ' + 'cart', items: 'it' + 'ems' };
export const count = 1 + 1 + 1;
