"""Whether what was read of a stream agrees with the events that it was written from."""
from layout import Alias, Coll, Scalar, SeqStart, directives_in_force, parse, spelling, start_explicit, tag_analysed

def tag_meant(s, e):
    """The tag that is written: one that isn't looked at is no part of the content."""
    return e.tag if tag_analysed(s, e) else None

def relies(e, form):
    """The flags that a scalar without a written tag must have to be written in this form."""
    return {"plain": e.plain_implicit, "quoted": e.quoted_implicit, "bare": e.plain_implicit and not e.quoted_implicit}[form]

def node_agrees(s, tree, node):
    e = tree.event
    if isinstance(e, Alias): return node == ("alias", e.anchor)
    if node[0] == "alias" or node[1:3] != (e.anchor, tag_meant(s, e)): return False
    if isinstance(e, Scalar):
        return node[0] == "scalar" and node[4] == e.value and (node[3] is None if node[2] is not None else relies(e, node[3]))
    if node[0] != ("seq" if isinstance(e, SeqStart) else "map") or len(node[3]) != len(tree.items): return False
    if node[0] == "seq": return all(node_agrees(s, t, x) for t, x in zip(tree.items, node[3]))
    return all(node_agrees(s, t, x) and node_agrees(s, u, y) for (t, u), (x, y) in zip(tree.items, node[3]))

def agrees(s, L, read):
    """s: effective settings, L: an accepted list, read: what stream_reader.read gave."""
    docs = parse(L)
    return read is not None and len(read) == len(docs) and all(
        (version, tags) == (start.version, start.tags) and node_agrees(s, tree, root)
        for (start, tree, _), (version, tags, root) in zip(docs, read))

# ---- what portable mends: without it these lists don't read back

def is_lost_document(s, L):
    """The first document has no `---` and its root is written as nothing, so no reader sees a document."""
    if len(L) < 3 or start_explicit(s, True, L[1]): return False
    e = L[2]
    return (isinstance(e, Scalar) and e.value == "" and e.anchor is None and not tag_analysed(s, e)
            and e.style in ("any", "plain") and e.plain_implicit)

def has_flow_sign_after_handle(s, L):
    """`,` `[` or `]` follows a tag's handle: readers end the tag there."""
    for start, tree, _ in parse(L):
        work = [tree]
        while work:
            t = work.pop(); e = t.event
            if not isinstance(e, Alias) and tag_analysed(s, e):
                handle, rest = spelling(e.tag, directives_in_force(start))
                if handle is not None and set(rest) & set(",[]"): return True
            if isinstance(t, Coll): work += t.items if isinstance(e, SeqStart) else [x for pair in t.items for x in pair]
    return False
