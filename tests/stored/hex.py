"""hex.py DIRECTORY TEXT..: write the bytes of each commented hexadecimal text NAME.hex into DIRECTORY, as NAME.sheet.

A # starts a comment, to the end of the line. A byte is two hexadecimal digits; 00*9 stands for nine zero bytes.
"""
import pathlib
import re
import sys


def bytes_of(path):
    out = b""
    for word in re.sub("#.*", "", path.read_text(encoding="utf-8")).split():
        byte = re.fullmatch(r"([0-9A-Fa-f]{2})(?:\*([0-9]+))?", word)
        if byte is None:
            sys.exit(f"{path}: {word} is no byte")
        out += bytes.fromhex(byte[1]) * int(byte[2] or 1)
    return out


directory = pathlib.Path(sys.argv[1])
for text in map(pathlib.Path, sys.argv[2:]):
    (directory / text.with_suffix(".sheet").name).write_bytes(bytes_of(text))
