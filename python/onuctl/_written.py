"""Scripts and histories as they are written in files: with a byte order mark, or in words."""

from ._scripts import encode

_MARK = b"\xef\xbb\xbf"
# The first words of lines in words (docs/WORDS.md) but `o` and `f`, with which a script may begin.
_FIRST = frozenset(b"create delete set get get-next upload upload-next reset entry remove-entry frame raw".split())


def without_mark(text: bytes) -> bytes:
    """A text without a byte order mark in front."""
    return text[len(_MARK) :] if text.startswith(_MARK) else text


def is_in_words(text: bytes) -> bool:
    """Whether the first word of a text that isn't in a remark is one of those in words."""
    begin = 0
    while begin < len(text):
        end = text.find(b"\n", begin)
        end = len(text) if end < 0 else end
        words = text[begin:end].split(b"#", 1)[0].split(None, 1)
        if words:
            return words[0] in _FIRST
        begin = end + 1
    return False


def script_of(text: bytes) -> bytes:
    """The script that a text in words asks for, line by line, or any other text as it is; without a byte order mark. Raises
    :class:`onuctl.Mistakes`."""
    text = without_mark(text)
    return encode(text).encode() if is_in_words(text) else text
