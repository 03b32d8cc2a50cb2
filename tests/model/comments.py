"""Comments and blank lines as the layout writes them: their texts, and their lines at a column."""
from characters import is_break, is_printable

# ---------------------------------------------------------------- texts

def comment_text(text: str) -> str:
    """One line of a comment: a space for each character that a line can't hold, and no spaces at the end."""
    return "".join(c if is_printable(c) and not is_break(c) else " " for c in text).rstrip(" ")

def head_of(text: str) -> tuple:
    """The lines of a head comment that is given as one text. LF and CR LF end a line."""
    return tuple(comment_text(line) for line in text.replace("\r\n", "\n").split("\n"))

def line_of(text: str) -> str:
    """The text of a line comment: its lines, joined by spaces."""
    return comment_text(" ".join(head_of(text)))

def comment(text: str) -> str:
    """`#` and a text, with a space between them unless the text is empty or begins with `#`."""
    return "#" + text if text[:1] in ("", "#") else "# " + text

def without_repeated_blanks(head) -> tuple:
    """The lines of a head with one blank line in place of several in a row."""
    return tuple(text for i, text in enumerate(head) if i == 0 or text is not None or head[i - 1] is not None)

# ---------------------------------------------------------------- what is written

def write_head(t, head, column: int, keeps_breaks: bool):
    """Writes the lines of a head at a column, each on a line of its own, and ends the last: what follows begins a line. keeps_breaks:
    the last block scalar keeps its final breaks, and would read a blank line directly after it as its own."""
    wrote = False
    for text in without_repeated_blanks(head):
        if text is not None:
            if t.c.column > 0: t.newline(0)
            t.newline(column)
            t.put(comment(comment_text(text))); t.flags(whitespace=False, indention=False)
        elif not t.c.indention:                                # the line holds a text, and ends before the blank line
            t.newline(0); t.brk()
        elif t.c.column == 0 and not keeps_breaks: t.brk()
        else: continue                                         # no blank line after `- `, `? ` or `: `, nor after kept breaks
        wrote = True
    if wrote: t.newline(0)

def write_line_comment(t, text):
    """Writes a comment at the end of a line, if there is one: two spaces precede it."""
    if text is not None:
        t.put("  " + comment(line_of(text))); t.flags(whitespace=False, indention=False)
