"""Finds errors in the sentences of documents, comments and shown strings: sentences that are too long, and words that have a better replacement."""

import re

MAX_WORDS = 30
# Patterns for unidiomatic or vague words, each with the words to write instead.
REPLACEMENTS = {
    r"tells?|told|telling": "report, print, say or show",
    r"(?:comes?|came) (?:to|about)": "reach or happen",
    r"beg[ia]ns? to hold": "become true",
    r"so many": "N, or what is counted",
    r"go(?:es)? on|went on|going on": "continue or resume",
    r"(?:of|by) which": "two sentences",
    r"faults?": "error; of a device, I/O error",
    r"refus(?:e|es|ed|ing)": "reject",
    r"(?:is|are|was|were|be|been) taken": "is accepted or is read",
    r"st(?:and|ands|ood|anding)(?! for\b|-)": "is",
    r"time (?:runs|is stopped)": "running, paused",
    r"lamps? (?:is|are) lit": "is on",
    r"by hand": "manual or manually",
    r"anew": "again",
    r"a find|finds of|made short": "counterexample, minimised",
    r"owed|owes": "a second cycle is pending",
    r"pinned by sums|(?:a|the) sums? of": "checksum",
    r"torn? off|tears? off|strips?|(?<!pencil and )paper": "printout, printer tape",
    r"(?:a|the|each|one) looks?(?!-)": "snapshot",
    r"as an eye sees": "perceived",
    r"faces?": "front panel",
    r"heat(?! map)": "heat map",
    r"accounts?": "result",
    r"ways of jumps": "branch directions",
    r"(?:exactly|only|except) where": "if",
    r"ha(?:s|ve) to": "must or need not",
    r"simply|just|of course|note that|please": "nothing",
    r"\w+n't|(?:it|that|let|here|there)'s|you're": "no contraction",
}
BETTER_WORDS = list(REPLACEMENTS.values())
AVOIDED_WORDS = re.compile("|".join(rf"\b(?P<word{n}>{words})\b" for n, words in enumerate(REPLACEMENTS)), re.I)
# The beginnings of the sentences that are exempt, with the reasons.
EXCEPTIONS = {
    "places are acc,": "a list of the places",
    "acc, cy, dcl, r0 to r15,": "a list of the places",
    "a fault to find": "the name of an example",
    "continue takes no argument; run TIME": "`run TIME` is a command",
    "*Whatever bytes the shell reads, and wherever the machine stops,": "the headline of PROOF stays word for word",
}
# Matches a piece of code in backticks, or a list of such pieces. A match counts as one word.
CODE_SPANS = r"`[^`]*`(?:(?:,| and|, and)? \(?`[^`]*`\)?)*"
# The beginning of a new block: a table row, a list item, a heading.
BLOCK_BEGIN = r"\s*(?:\||- |\d+\. )|#"


def blocks_of(text):
    """Yields paragraphs, list items, cells and headings, each with the number of its first line, without code blocks."""
    block, first_number, is_in_code = [], 1, False
    for number, line in enumerate([*text.splitlines(), ""], 1):
        is_fence = line.startswith("```")
        if block and (not line.strip() or is_fence or re.match(BLOCK_BEGIN, line)):
            yield first_number, " ".join(block)
            block = []
        is_in_code ^= is_fence
        if is_in_code or is_fence or (line.startswith("    ") and not block and not re.match(BLOCK_BEGIN, line)):
            continue
        if line.startswith("|"):
            yield from ((number, cell.strip()) for cell in line.strip("|").split("|"))
        elif line.strip():
            first_number = first_number if block else number
            block.append(line.strip() if block else re.sub(r"^(?:- |\d+\. |#+ )", "", line.strip()))


def sentences_of(text):
    """Yields each sentence with the number of the first line of its block. Omits the targets of links, and the rest of a block after an em dash: in
    PROOF's promises, the contracts follow one."""
    for number, block in blocks_of(text):
        prose = re.sub(CODE_SPANS, "CODE", re.sub(r"\]\([^)]*\)", "]", block)).partition(" \u2014 ")[0]
        yield from ((number, sentence) for sentence in re.split(r"(?<=[.?!])[*)\"]*\s+", prose))


def errors_of(text):
    """Yields descriptions of the errors in the sentences of `text`, with the numbers of their lines."""
    for number, sentence in sentences_of(text):
        if sentence.startswith(tuple(EXCEPTIONS)):
            continue
        word_count = len(re.findall(r"\w[\w'/-]*", sentence))
        if word_count > MAX_WORDS:
            yield number, f"a sentence of {word_count} words, with a limit of {MAX_WORDS}: {sentence[:60]}.."
        for match in AVOIDED_WORDS.finditer(sentence):
            context = sentence[max(0, match.start() - 20):match.end() + 20]
            yield number, f"\"{match[0]}\" in \"{context}\": write {BETTER_WORDS[int(match.lastgroup.removeprefix('word'))]}"
