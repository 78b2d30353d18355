"""Reads and changes the parts that page/build has embedded in a page: its WebAssembly module and its worker's script."""

import base64
import re
import zlib


def part_of_page(text, name):
    """Returns the contents of the script element with an id, in which page/build has embedded data."""
    return re.search(rf'<script type="[a-z/]+" id="{name}">(.*?)</script>', text, re.S).group(1)


def module_of_page(page):
    """Returns the page's WebAssembly module."""
    data = base64.b64decode(part_of_page(page.read_text(), "module"))
    # Older pages contain an uncompressed module.
    return data if data.startswith(b"\0asm") else zlib.decompress(data, -15)


def with_worker_code(text, code):
    """Returns a page's text with `code` inserted before the worker's script. (In older pages, that script is not compressed.)"""
    encoded = part_of_page(text, "worker")
    if not re.fullmatch("[A-Za-z0-9+/=]+", encoded):
        return text.replace(encoded, code + encoded, 1)
    compressor = zlib.compressobj(wbits=-15)
    compressed = compressor.compress(code.encode() + zlib.decompress(base64.b64decode(encoded), -15)) + compressor.flush()
    return text.replace(encoded, base64.b64encode(compressed).decode(), 1)
