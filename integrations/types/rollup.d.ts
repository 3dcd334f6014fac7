import type { Plugin } from 'rollup';
import type { Options } from './options';

declare function zorikham(options?: Options): Plugin;
export = zorikham;
