"""Random comments beside the events of a list, at places that have them and at those that don't."""
from events import Comments, NO_COMMENTS

WORDS = ["", "", "c", "a comment", "# twice", "- x", "key: value", "'", '"', "it's", "[", "}", "|", "###", "%YAML 1.1", "---", "...", "\ttab", "trailing  ",
         "  leading", "\u00e9", "\u2028", "a\u0085b", "\ufeff", "\x07", "a\nb", "a\r\nb", "\r", "x" * 90, "&a", "*a", "!t", ": ", "? "]

def line(r):
    return r.choice(WORDS) if r.random() < 0.7 else " ".join(r.choice(WORDS) for _ in range(r.randint(0, 3)))

def beside(r, density):
    if r.random() >= density: return NO_COMMENTS
    head = tuple(None if r.random() < 0.3 else line(r) for _ in range(r.choice([0, 1, 1, 1, 2, 3])))
    return Comments(head, line(r) if r.random() < 0.4 else None)

def comments(r, L):
    density = r.choice([0.1, 0.3, 0.6, 1.0])
    return [beside(r, density) for _ in L]
