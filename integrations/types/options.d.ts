/** The name of a pass. */
export type Pass = 'simplify' | 'optimize' | 'expr' | 'branch' | 'dce' | 'const' | 'inline' | 'json';

/** What the program is given, one at a time: modules as the bundler loads them, or chunks as it makes them. */
export type Unit = 'module' | 'chunk';

/** A module or a chunk that stays as it is. `line` is counted from 1, `column` from 0; a reason may have no place. */
export interface Left {
    name: string;
    reason: string;
    line?: number;
    column?: number;
}

/** What became of the modules or the chunks of a build. The bytes are those of the simplified ones. */
export interface Report {
    unit: Unit;
    total: number;
    simplified: number;
    bytesBefore: number;
    bytesAfter: number;
    left: Left[];
}

/** The options of a plugin. docs/USING.md describes them. */
export interface Options {
    program?: string | string[];
    unit?: Unit | Unit[];
    left?: 'warn';
    pass?: Pass | Pass[];
    keepTop?: boolean;
    retain?: string[];
    dropImports?: boolean;
    rounds?: number;
    minCost?: number;
    compact?: boolean;
    verbatim?: boolean;
    define?: Record<string, string>;
    env?: Record<string, string>;
    typeof?: Record<string, string>;
    const?: Record<string, Record<string, string>>;
    report?: false | string | ((report: Report) => void);
}
