import { Compared, Erd, Options } from './index.js';

/** A step, in the order in which they are done. */
export interface Step {
    name: string;
    /**
     * `removed`: no ballot has it. `filled-in`: what a voter sees stays as it is. `visible`: a voter sees another ballot. `view`: it leaves
     * out what a comparison is to pass over.
     */
    group: 'removed' | 'filled-in' | 'visible' | 'view';
    title: string;
    /** What it does. */
    does: string;
    /** What it gives up, or what to look at. */
    loses: string;
}

/** A change, with its place in the report that was given. A value that is not there is undefined. */
export interface Change {
    place: (string | number)[];
    before: unknown;
    after: unknown;
}

/** A number that is written in another way in the copy, by its line and its column, which counts bytes. Both begin with 1. */
export interface ChangedNumber {
    line: number;
    column: number;
    before: string;
    after: string;
}

/**
 * What a step did, or would do at its turn if it is not done. `made` has the first thousand changes, and fewer if they have more than a
 * megabyte together; so has `left`. `numbers`, of which the changes have no place, is no step that can be chosen.
 */
export interface Done {
    name: string;
    done: boolean;
    made: (Change | ChangedNumber)[];
    /** What the step left as it is, and why. */
    left: { place: (string | number)[]; why: string }[];
    /** How many changes there are. */
    count: number;
    /** How many places are left. */
    leftCount: number;
    /** Whether some of them are not told. */
    more: boolean;
}

/** Every step. */
export const STEPS: readonly Step[];

/** The names of the steps of these groups. */
export function stepsOf(...groups: Step['group'][]): string[];

/** What to do about a fault that is left, by the number of its reason: the steps that may fix it, and what to ask the vendor for. */
export function remedyOf(reason: number): { steps: string[]; letter: string };

/** The line that `erd prepare` writes about a reason that is left, without its line feed. */
export function lineOfRemedy(reason: number): string;

/** A file that is being prepared. */
export class Preparation {
    constructor(bytes: Uint8Array, erd: Erd);
    /**
     * Does these steps on a copy, in the order of `STEPS`. With `tellsOthers`, what the other steps would do is told too. The copy is
     * compact JSON, with the members of each object in the order of their names; a file of which no step changes anything keeps its bytes.
     * @throws {Error} if the bytes are not JSON
     * @throws {RangeError} for a name that no step has
     */
    prepare(names: Iterable<string>, options?: { tellsOthers?: boolean }): { bytes: Uint8Array; steps: Done[] };
}

/** What a step did, as plain data: each place as a JSON Pointer, with the compact text of the value before and after. */
export function told(done: Done): {
    step: string; done: boolean; count: number;
    changes: ({ pointer: string; before: string | null; after: string | null } | ChangedNumber)[];
    left_count: number;
    left: { pointer: string; why: string }[];
    more: boolean;
};

/** A copy on which steps were done. */
export interface Copy {
    bytes: Uint8Array;
    /** What each step did. */
    steps: Done[];
}

/**
 * Does the same steps on copies of two reports, and compares the copies. If a copy is refused, the comparison has its faults.
 * @throws {Error} if the bytes of one are not JSON
 * @throws {RangeError} for a name that no step has
 */
export function comparePrepared(left: Uint8Array, right: Uint8Array, names: Iterable<string>, erd: Erd, options?: Options):
    { compared: Compared; left: Copy; right: Copy };
