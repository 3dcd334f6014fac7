#!/usr/bin/env node
import a, { b as c, default as d, 'e f' as g } from 'h';
import * as i from 'j'; import {} from 'k'; import 'l'; import * as é from "m"
export { a, c as m, d as 'n o', i as '\u{70} q' }; export * from 'p'; export * as q from 'r'
export * as 's t' from "u"; export { v, w as x, default as y, 'z' as z2 } from 'aa';
export default class A extends B { m() { return A; } }
export class C { n = A; }
export async function* D() { yield C; }
export const e = class {}, { f, h2: [h] } = i;
export let j; export var k = l?.m, { n } = o
export function P({ q }) { return q + P; }
