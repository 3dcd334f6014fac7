import type { Compiler } from 'webpack';
import type { Options } from './options';

declare class ZorikhamPlugin {
    constructor(options?: Options);
    apply(compiler: Compiler): void;
}
export = ZorikhamPlugin;
