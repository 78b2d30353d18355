export declare function findClusterBreak(str: string, pos: number, forward?: boolean, includeExtending?: boolean): number;
export declare function codePointAt(str: string, pos: number): number;
export declare function fromCodePoint(code: number): string;
export declare function codePointSize(code: number): 1 | 2;
