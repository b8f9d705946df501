"""The forms of small texts: numbers, names, refs, identities, paths."""
from __future__ import annotations

from typing import Optional, Tuple

DIGITS = frozenset(b"0123456789")
HEX = frozenset(b"0123456789abcdefABCDEF")
# a letter behind a backslash, and the byte that the two stand for
ESCAPES = {
    ord("a"): 7,
    ord("b"): 8,
    ord("t"): 9,
    ord("n"): 10,
    ord("v"): 11,
    ord("f"): 12,
    ord("r"): 13,
    ord('"'): 34,
    ord("\\"): 92,
}


def decimal(text: bytes) -> Optional[int]:
    """The number of 1 to 20 digits, leading zeros allowed, below 2^64; else None."""
    if not 1 <= len(text) <= 20 or not DIGITS.issuperset(text):
        return None
    number = int(text)
    return number if number < 1 << 64 else None


def is_hex(text: bytes) -> bool:
    """Whether a text is hexadecimal digits."""
    return len(text) > 0 and HEX.issuperset(text)


def object_name(text: bytes) -> Optional[bytes]:
    """The 20 bytes of 40 hexadecimal digits, or None."""
    return bytes.fromhex(text.decode("ascii")) if len(text) == 40 and is_hex(text) else None


def is_ref(text: bytes) -> bool:
    """Whether a text may be the name of a ref."""
    return (
        len(text) > 0
        and b".." not in text
        and not any(byte <= 32 or byte == 127 or byte in b"~^:?*[\\" for byte in text)
    )


def is_time(text: bytes) -> bool:
    """Whether a text is seconds since 1970 and a zone, as 1700000000 +0130."""
    seconds, _, zone = text.partition(b" ")
    if not (1 <= len(seconds) <= 18 and DIGITS.issuperset(seconds)):
        return False
    return (
        len(zone) == 5
        and zone[:1] in (b"+", b"-")
        and DIGITS.issuperset(zone[1:])
        and int(zone[1:]) <= 1400
    )


def identity_fault(text: bytes) -> Optional[bytes]:
    """None where a text is a name, an address in angles and a time; else why it is refused."""
    name, open_angle, rest = text.partition(b"<")
    address, close_angle, tail = rest.partition(b">")
    if not open_angle or name and not name.endswith(b" ") or b">" in name or b"\0" in name:
        return b"syntax"
    if not close_angle or b"<" in address or b"\0" in address or not tail.startswith(b" "):
        return b"syntax"
    return None if is_time(tail[1:]) else b"unsupported"


def unquoted(text: bytes) -> Optional[bytes]:
    """The bytes of the text of a path, which may be quoted as in C; None where a quoted one is in
    no form."""
    if not text.startswith(b'"'):
        return text
    out, at = bytearray(), 1
    while at < len(text):
        byte = text[at]
        if byte == 34:
            return bytes(out) if at == len(text) - 1 else None
        if byte != 92:
            out.append(byte)
            at += 1
        elif text[at + 1 : at + 2] and text[at + 1] in ESCAPES:
            out.append(ESCAPES[text[at + 1]])
            at += 2
        else:
            digits = text[at + 1 : at + 4]
            if (
                len(digits) != 3
                or not all(48 <= digit <= 55 for digit in digits)
                or int(digits, 8) > 255
            ):
                return None
            out.append(int(digits, 8))
            at += 4
    return None


def read_path(text: bytes) -> Optional[Tuple[bytes, ...]]:
    """The path of a text, as its parts; None where it is none."""
    raw = unquoted(text)
    if raw is None:
        return None
    parts = raw.split(b"/")
    return (
        None if any(part in (b"", b".", b"..") or b"\0" in part for part in parts) else tuple(parts)
    )
