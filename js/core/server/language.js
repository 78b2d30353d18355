// The interface of a language: an object that answers an editor's requests about one kind of text, such as programs or boards. A language
// implements only the methods that it supports.

/**
 * @typedef {import("../text/completion.js").Completion} Completion
 * @typedef {import("../text/completion.js").CompletionItem} CompletionItem
 * @typedef {import("../text/folding.js").FoldPatterns} FoldPatterns
 * @typedef {import("../text/program_format.js").Layout} Layout
 * @typedef {import("./open_text.js").OpenText} OpenText
 * @typedef {import("./lsp_protocol.js").Location} Location
 * @typedef {import("./lsp_protocol.js").Position} Position
 * @typedef {import("./lsp_protocol.js").Range} Range
 * @typedef {import("./lsp_protocol.js").TextEdit} TextEdit
 * @typedef {import("./token_codes.js").ColouredWord} ColouredWord
 *
 * The errors in a text. `isComplete` is false if the text can contain errors that are not in `errors`.
 * @typedef {{ errors: import("./diagnostics.js").ShownError[], isComplete: boolean }} FoundErrors
 *
 * The help at a position, as plain text and in Markdown.
 * @typedef {{ plainText: string, markdown: string, range?: Range }} Hover
 * @typedef {CompletionItem & { kind: number, documentation?: string }} CompletedWord
 * @typedef {{ name: string, kind: number, detail: string, range: Range, selectionRange: Range }} DocumentSymbol
 * @typedef {{ position: Position, label: string, paddingLeft: boolean }} InlayHint
 * @typedef {{ label: string, documentation: string, parameters: { label: [number, number], documentation: string }[] }} Signature
 * @typedef {{ signatures: Signature[], activeSignature: number, activeParameter: number }} SignatureHelp
 * @typedef {{ range: Range, target: string, tooltip: string }} DocumentLink
 *
 * A code lens: a title above a line. A click shows the references, or runs the test with the name `test`. Either `references` or `test` is
 * null.
 * @typedef {{ range: Range, title: string, references: Range[] | null, test: string | null }} Lens
 *
 * A routine of a program, in the protocol's format.
 * @typedef {{ name: string, detail: string, range: Range, selectionRange: Range }} Routine
 *
 * A calling or called routine, with the ranges of the calls.
 * @typedef {{ routine: Routine, ranges: Range[] }} Call
 *
 * The handlers for one kind of text.
 * @typedef {object} Language
 * @property {FoldPatterns} foldPatterns the patterns that delimit the foldable ranges of a text
 * @property {(openText: OpenText, isWanted: () => boolean) => Promise<FoundErrors | undefined>} findErrors resolves to undefined if
 *   `isWanted` returns false during the check
 * @property {(openText: OpenText, position: Position) => Hover | null} [hover]
 * @property {(openText: OpenText, position: Position) => Range | Location | null} [definition] returns a Range if the
 *   target is in the same text
 * @property {(openText: OpenText, position: Position, includesDefinition: boolean) => Range[]} [references]
 * @property {(openText: OpenText, position: Position) => { range: Range, placeholder: string } | null} [renameTarget]
 * @property {(openText: OpenText, position: Position, newName: string) => TextEdit[]} [rename]
 * @property {(openText: OpenText, position: Position, trigger: string) => Omit<Completion, "list">
 *   & { list: CompletedWord[] }} [completion] `trigger` is the typed character that triggered the request, "" for none
 * @property {(openText: OpenText) => DocumentSymbol[]} [symbols]
 * @property {(openText: OpenText) => ColouredWord[]} [semanticTokens]
 * @property {(openText: OpenText, range: Range, layout: Layout) => TextEdit[]} [format] returns the edits in a range
 * @property {(openText: OpenText, range: Range) => InlayHint[]} [hints]
 * @property {(openText: OpenText, position: Position) => SignatureHelp | null} [signature]
 * @property {(openText: OpenText, position: Position) => [number, number][]} [selectionColumns] returns the column ranges in the line to
 *   which an editor can expand the selection
 * @property {(openText: OpenText) => DocumentLink[]} [links]
 * @property {(openText: OpenText) => Lens[]} [lenses]
 * @property {(openText: OpenText, position: Position) => Routine | null} [routine]
 * @property {(openText: OpenText, position: Position) => Call[]} [callers]
 * @property {(openText: OpenText, position: Position) => Call[]} [callees]
 */

export {};
