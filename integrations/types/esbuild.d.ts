import type { Plugin } from 'esbuild';
import type { Options } from './options';

declare function zorikham(options?: Options): Plugin;
export = zorikham;
