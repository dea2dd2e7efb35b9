"""Texts that others wrote, as a terminal shows them."""

import unicodedata

# Of longer texts the rest is left out.
MOST = 100

# What a terminal might obey: controls, what turns the direction of a line round, parts of letters, and ends of lines.
_OBEYED = ("Cc", "Cf", "Cs", "Cn", "Co", "Zl", "Zp")


def shown(text: str, most: int = MOST) -> str:
    r"""A text in one line of so many letters at most: a control is spelled, such as `\x1b`, and the end of a longer text is
    left out. For names and words from tiles, stores and servers."""
    letters = [_letter(letter) for letter in text[: most + 1]]
    if sum(map(len, letters)) <= most:
        return "".join(letters)
    while sum(map(len, letters)) > most - 1:
        letters.pop()
    return "".join(letters) + "…"


def _letter(letter: str) -> str:
    if unicodedata.category(letter) not in _OBEYED:
        return letter
    code = ord(letter)
    if 0xDC80 <= code < 0xDD00:
        # a byte of a file's name that is no UTF-8
        code -= 0xDC00
    return f"\\x{code:02x}" if code < 0x100 else f"\\u{code:04x}" if code < 0x10000 else f"\\U{code:08x}"
