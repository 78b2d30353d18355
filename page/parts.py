"""Finds the third-party software that the page needs: esbuild bundles its modules, CodeMirror 6 is its editor, and pako decompresses its data
in browsers without DecompressionStream.

CodeMirror and pako are in page/codemirror, from the packages of Debian trixie. page/codemirror/fetch downloads them, and page/codemirror/SUMS
has the checksum of each file. The module looks for esbuild in page/from_npm, where `npm install --prefix page/from_npm esbuild@VERSION`
puts it, and then in PATH. With another version of esbuild, or with a zlib that compresses differently, the page differs from the shipped
one. A message then reports the difference, but the page is still built.
"""

import hashlib
import pathlib
import re
import shutil
import subprocess
import zlib

HERE = pathlib.Path(__file__).resolve().parent
ESBUILD_VERSION = "0.17.0"
CODEMIRROR_FOLDER = HERE / "codemirror"
# A sample text, and the checksum (SHA-256) of this text compressed with zlib. If the checksum differs, zlib compresses differently on this machine.
SAMPLE_TEXT = " ".join(str(number * number) for number in range(20000)).encode()
SAMPLE_CHECKSUM = "c9235e861439903a62dc18ba276c200da9cfd6a308ace067475943966a4aaa78"
# Matches the imports of js/page from CodeMirror: the imported names, and the module.
CODEMIRROR_IMPORT = re.compile(r'^import \{([^}]*)\}\s*from "(@codemirror/[a-z]+|style-mod)";', re.M)


class MissingPart(Exception):
    """Raised if a part is missing or differs from the expected one. The message says what to do."""


def esbuild():
    """Returns the path of esbuild."""
    path = shutil.which("esbuild", path=str(HERE / "from_npm/node_modules/.bin")) or shutil.which("esbuild")
    if path is None:
        raise MissingPart(f"esbuild is not installed; with npm: npm install --prefix page/from_npm esbuild@{ESBUILD_VERSION}; "
                          "on Debian: apt-get install esbuild")
    return path


def checksums():
    """Returns the checksums (SHA-256) of the files of CodeMirror and pako, by file name."""
    lines = (CODEMIRROR_FOLDER / "SUMS").read_text().splitlines()
    return {name: checksum for checksum, name in (line.split("  ", 1) for line in lines)}


def editor_folder():
    """Returns the folder of CodeMirror and pako, after checking the checksum of each file."""
    changed_files = [name for name, checksum in checksums().items() if hashlib.sha256((CODEMIRROR_FOLDER / name).read_bytes()).hexdigest() != checksum]
    if changed_files:
        raise MissingPart(f"page/codemirror/{changed_files[0]} does not have the checksum in SUMS; page/codemirror/fetch downloads it again")
    return CODEMIRROR_FOLDER


def editor_imports(folder):
    """Returns the sorted names that the modules of a folder import from each CodeMirror module, by CodeMirror module."""
    imports = {}
    for path in sorted(folder.rglob("*.js")):
        for names, module in CODEMIRROR_IMPORT.findall(path.read_text()):
            imports.setdefault(module, set()).update(name.strip() for name in names.split(",") if name.strip())
    return {module: sorted(names) for module, names in sorted(imports.items())}


def compress(data):
    """Returns bytes compressed with raw DEFLATE."""
    compressor = zlib.compressobj(9, wbits=-15)
    return compressor.compress(data) + compressor.flush()


def differing_parts():
    """Returns a message for each part (esbuild, zlib) that differs from the one with which the shipped page was built."""
    version = subprocess.run([esbuild(), "--version"], stdout=subprocess.PIPE, text=True, check=True).stdout.strip()
    esbuild_messages = [] if version == ESBUILD_VERSION else [f"esbuild is {version}, not {ESBUILD_VERSION}"]
    has_same_zlib = hashlib.sha256(compress(SAMPLE_TEXT)).hexdigest() == SAMPLE_CHECKSUM
    zlib_messages = [] if has_same_zlib else [f"zlib {zlib.ZLIB_RUNTIME_VERSION} compresses differently"]
    return [*esbuild_messages, *zlib_messages]


def editor_licence():
    """Returns the authors and licences of CodeMirror and pako, which the page must contain."""
    licence = (CODEMIRROR_FOLDER / "LICENCE").read_text().strip()
    return f"CodeMirror 6, on which the editors of this page are based, and pako, which unpacks its module.\n\n{licence}"
