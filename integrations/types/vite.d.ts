import type { Plugin } from 'vite';
import type { Options } from './options';

declare function zorikham(options?: Options): Plugin;
export = zorikham;
