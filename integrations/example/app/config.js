export const DEBUG = false;
export const VERSION = '1' + '.' + '4';
export const CENTS = 10 * 10;
