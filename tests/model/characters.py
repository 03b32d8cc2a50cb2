"""The classes of characters, which the model's writer and its readers share."""

BREAKS = "\n\r\x85\u2028\u2029"
ALPHA = set("0123456789ABCDEFGHIJKLMNOPQRSTUVWXYZabcdefghijklmnopqrstuvwxyz_-")

def is_printable(c: str) -> bool:
    o = ord(c)
    return (o == 0x0A or 0x20 <= o <= 0x7E or 0xA0 <= o <= 0xD7FF or (0xE000 <= o <= 0xFFFD and o != 0xFEFF)
            or 0x10000 <= o <= 0x10FFFF)

def is_break(c): return c in BREAKS
