// The modules that page/build adds to the scripts of the page, and the interface of Visual Studio Code.
declare module "#answer-table" {
  const text: string;
  export default text;
}

/** Returns the interface of Visual Studio Code for the script of a view. */
declare function acquireVsCodeApi(): { postMessage(message: { place: string, isDown: boolean } | { isReady: true } | { clearsPrintout: true }): void };

declare module "#face-table" {
  const text: string;
  export default text;
}
