export declare function countColumn(string: string, tabSize: number, to?: number): number;
export declare function findColumn(string: string, col: number, tabSize: number, strict?: boolean): number;
