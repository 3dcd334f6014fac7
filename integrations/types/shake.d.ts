import type { Left, Options, Pass } from './options';

export type { Left, Options, Pass, Report, Unit } from './options';

/** A fault of the build. `reason` is the message without the name of this package. */
export class ShakeError extends Error {
    reason: string;
    line?: number;
    column?: number;
}

/** What became of a text: its code, or why it stays as it is. */
export type Result = { code: string; left?: undefined } | { left: Omit<Left, 'name'>; code?: undefined };

/** The names of the passes. */
export const PASSES: Pass[];
/** Simplifies one module. Throws a ShakeError where it has a syntax error or the program fails. */
export function simplify(text: string, options?: Options): Promise<Result>;
/** Returns the comments of a text that licences are in. */
export function licenceComments(text: string): string[];
/** Returns the code with the licence comments of the text in front. */
export function withLicence(text: string, code: string): string;
