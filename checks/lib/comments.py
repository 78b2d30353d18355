"""Finds the comments in the sources, so that checks/documents can check their sentences. Also finds the strings in js/words."""

import ast
import pathlib
import re
import subprocess

TOP = pathlib.Path(__file__).resolve().parent.parent.parent
# Third-party files, generated files, and boards, whose comments describe a front panel or a drawing.
EXEMPT_FILES = re.compile(r"page/(?:codemirror|from_npm)/|page/fethsaim\.html|shipped/|examples/\w+/board\.toml")
C_STYLE_SUFFIXES = {".js", ".mjs", ".cjs", ".ts", ".css", ".c", ".rt"}
HASH_SUFFIXES = {".py", ".sh", ".toml", ".vim"}
# Matches a comment. Also matches a complete string, template or regular expression, because nothing inside them is a comment.
C_TOKEN = re.compile(r"""
    (?P<block>/\*.*?\*/) | (?P<line>//[^\n]*)
  | "(?:\\.|[^"\\\n])*" | '(?:\\.|[^'\\\n])*' | `(?:\\.|[^`\\])*`
  | (?<=[=(,:;!&|?{}\[\n])[ ]*/(?![/*])(?:\\.|\[(?:\\.|[^\]\\\n])*\]|[^/\\\n\[])+/[a-z]*
""", re.S | re.X)
# Matches a comment, or one or more strings that are joined by +.
SHOWN_TEXT = re.compile(r"""
    /\*.*?\*/ | //[^\n]*
  | (?P<text>(?:"(?:\\.|[^"\\\n])*"|'(?:\\.|[^'\\\n])*'|`(?:\\.|[^`\\])*`)(?:\s*\+\s*(?:"(?:\\.|[^"\\\n])*"|'(?:\\.|[^'\\\n])*'|`(?:\\.|[^`\\])*`))*)
""", re.S | re.X)
# Matches a JSDoc tag. The words after the tag's type and name are prose.
JSDOC_TAG = re.compile(r"@(?:param|property|prop|returns?|throws|type|typedef|template|callback|implements|extends|this|satisfies|import)\b")


def c_comments(text):
    """Yields the comments of a source in a language with C-style comments, each with the number of its first line."""
    for match in C_TOKEN.finditer(text):
        if match["block"] or match["line"]:
            yield text.count("\n", 0, match.start()) + 1, match[0]


def without_comment_marks(comment):
    """Returns the words of a comment, without the comment marks at its beginning, at its end, and at the beginnings of its lines."""
    comment = re.sub(r"^/\*+!?|\*+/$", "", comment.strip())
    words = "\n".join(re.sub(r"^\s*(?://[/!]?|\*(?!\*)|--|#+!?|;+)\s?", "", line) for line in comment.split("\n"))
    # Convert each line that explains a name to a list item.
    return re.sub(r"^(?=`[^`]+`: )", "- ", words, flags=re.M)


def without_types(text):
    """Returns a JSDoc comment without its tags and their types and names. The words after each tag begin a paragraph."""
    lines = []
    for line in text.split("\n"):
        tag = JSDOC_TAG.search(line)
        if tag is None:
            lines.append(line)
            continue
        depth, rest = 0, line[tag.end():].lstrip()
        for at, char in enumerate(rest):
            depth += (char == "{") - (char == "}")
            if depth == 0:
                rest = rest[at + 1:] if rest.startswith("{") else rest
                break
        else:
            rest = ""
        if tag[0] in ("@param", "@property", "@prop", "@typedef", "@template", "@callback"):
            rest = re.sub(r"^\s*(?:\[[^\]]*\]|[\w.$]+)", "", rest)
        lines += ["", re.sub(r"^\s*-?\s*", "", rest)]
    return "\n".join(lines)


def line_comments(text, mark):
    """Yields the blocks of successive lines that begin with a comment mark, each with the number of its first line."""
    block, first_number = [], 1
    for number, line in enumerate([*text.split("\n"), ""], 1):
        if line.lstrip().startswith(mark) and not line.startswith("#!"):
            first_number = first_number if block else number
            block.append(line)
        elif block:
            yield first_number, "\n".join(block)
            block = []


def python_comments(text):
    """Yields the comments and the docstrings of a Python source, each with the number of its first line."""
    yield from line_comments(text, "#")
    for node in ast.walk(ast.parse(text)):
        if isinstance(node, (ast.Module, ast.FunctionDef, ast.ClassDef)) and (words := ast.get_docstring(node)):
            yield node.body[0].lineno, words


def join_line_comments(comments):
    """Yields comments with the numbers of their first lines. Joins `//` comments in successive lines."""
    block, first_number, last = [], 1, 0
    for number, comment in comments:
        if block and not (comment.startswith("//") and number == last + 1):
            yield first_number, "\n".join(block)
            block = []
        first_number = first_number if block else number
        block.append(comment)
        last = number if comment.startswith("//") else 0
    if block:
        yield first_number, "\n".join(block)


def comments_of(path):
    """Yields the words of each comment of a file, with the number of its first line."""
    text = path.read_text(errors="replace")
    if path.suffix in C_STYLE_SUFFIXES:
        found = join_line_comments(c_comments(text))
    elif path.suffix == ".antt":
        found = line_comments(text, "--")
    elif path.suffix == ".py" or text.startswith("#!/usr/bin/env python3"):
        found = python_comments(text)
    else:
        found = line_comments(text, "#")
    for number, comment in found:
        yield number, without_types(without_comment_marks(comment))


def is_commented(path):
    """Returns true if the comments of a file are checked."""
    if EXEMPT_FILES.search(str(path.relative_to(TOP))) or not path.is_file() or path.is_symlink():
        return False
    return path.suffix in C_STYLE_SUFFIXES | HASH_SUFFIXES | {".antt"} or (path.suffix == "" and path.read_bytes().startswith(b"#!"))


def commented_files():
    """Returns the files whose comments are checked: those in the repository that this project wrote."""
    names = subprocess.run(["git", "ls-files", "-z", "--cached", "--others", "--exclude-standard"], cwd=TOP, capture_output=True, check=True, text=True).stdout
    return [path for name in names.split("\0") if name and is_commented(path := TOP / name)]


def shown_texts():
    """Yields the file, the line and the words of each string that js/words can show. Replaces each value in a string with `VALUE`. Omits programs and
    keys."""
    for path in sorted((TOP / "js/words").glob("*.js")):
        source = path.read_text()
        for match in SHOWN_TEXT.finditer(source):
            text = "".join(re.findall(r"""["'`](.*?)["'`](?=\s*\+|\s*$)""", match["text"] or "", re.S))
            is_key = source.startswith(":", match.end())
            if text and not is_key and "\n        " not in text:
                yield path, source.count("\n", 0, match.start()) + 1, re.sub(r"\$\{(?:[^{}]|\{[^{}]*\})*\}", "`VALUE`", text)
