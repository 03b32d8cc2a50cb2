"""The public calls of the crates, as docs/REFERENCE.md and `tests/docs/contracts` show them."""
import dataclasses
import re

import sources


@dataclasses.dataclass
class Call:
    """A public item. `names` are those by which it is found; `owner` is the type that an implementation is of."""

    item: sources.Item
    title: str
    group: str
    code: str
    names: list
    owner: str = ""

    @property
    def doc(self):
        return self.item.doc

    @property
    def clauses(self):
        return clauses_of(self.item)


def public_parts(item):
    """Returns the declaration of a struct without its private fields."""
    if item.kind != "struct" or not item.body:
        return item.contract if item.kind == "fn" else item.text
    lines, kept, hidden = item.text[len(item.head) :].split("\n")[1:-1], [], False
    field, is_field_public = [], False
    for line in lines:
        field.append(line)
        if re.match(r" {4}\S", line) and not line.startswith(("    //", "    #")):
            is_field_public = line.startswith("    pub ") and not line.startswith("    pub(")
        # (a field ends with a comma outside of brackets; `rt fmt` leaves one at the end of its last line)
        if line.endswith(",") and not line.lstrip().startswith("//") and is_balanced("\n".join(field)):
            if is_field_public:
                kept += [part for part in field if not part.startswith("    // ")]
            else:
                hidden = True
            field = []
    if not kept:
        return f"{item.head} {{ .. }}"
    return "\n".join([f"{item.head} {{", *kept, *(["    // (and private fields)"] if hidden else []), "}"])


def is_balanced(text):
    masked = sources.mask(text)
    return all(masked.count(opening) == masked.count(closing) for opening, closing in sources.PAIRS.items())


def with_attributes(item, code):
    """Returns a declaration below the attributes that a caller sees."""
    seen = [attribute for attribute in item.attributes if attribute.startswith(("#[derive", "#[repr", "#[non_exhaustive"))]
    return "\n".join([*seen, code])


def declaration(item):
    code = public_parts(item)
    if item.kind == "trait":
        code = re.sub(r"^ *ghost use .*\n(?:\n(?= *ghost use|\Z))?", "", code, flags=re.M)
    return with_attributes(item, code)


def of_implementation(item):
    """Returns what an implementation promises: its definitions, and the contracts of its functions."""
    parts = []
    for child in item.children:
        if child.kind == "ghost" and child.name != "use" or child.kind == "type":
            parts.append(indented(child.text))
        elif child.kind == "fn":
            parts.append(indented(child.contract) + ";")
    return item.head + (" {\n" + "\n\n".join(parts) + "\n}" if parts else " {}")


def indented(text):
    return re.sub(r"^(?=.)", "    ", text, flags=re.M)


def trait_of(item):
    """Returns the name of the trait that an implementation is of, without its path and generics."""
    return re.sub(r"<.*", "", item.trait).split("::")[-1]


def implementations(crate, private_traits, is_of_type):
    """Returns the implementations in a crate of public traits, for the types that a test picks."""
    return [each for each in crate.every() if each.kind == "impl" and each.trait and is_of_type(each)
            and trait_of(each) not in private_traits | {"Drop"}]


def clauses_of(item):
    return item.clauses + [clause for child in item.children for clause in clauses_of(child)]


GROUPS = {"struct": "Types", "enum": "Types", "trait": "Traits", "const": "Constants", "static": "Constants", "type": "Types"}


def of_function(item, title, group):
    return Call(item, title, group, declaration(item), [title])


def of_other(crate, item):
    """Returns the call that shows an exported item that is no function, found by the names of its functions and variants, too."""
    names = [item.name, *(f"{item.name}::{child.name}" for child in item.children if child.kind == "fn")]
    names += [path.split("::")[-1] for path in crate.exported if path.split("::")[-2:-1] == [item.name]]
    return Call(item, item.name, GROUPS[item.kind], declaration(item), names)


def methods(crate, name):
    """Returns the public functions of a type."""
    for block in crate.every():
        if block.kind == "impl" and block.name == name and not block.trait:
            for child in block.children:
                if child.kind == "fn" and child.is_public:
                    yield of_function(child, f"{name}::{child.name}", "Types")


def calls_of(crate, traits):
    """Returns the public calls of a crate. `traits` has the public traits of all crates of this repository."""
    public = crate.public()
    private_traits = {item.name for item in crate.every() if item.kind == "trait"} - {item.name for item in public}
    types = {item.name for item in public if item.kind in ("struct", "enum")}
    found = []
    for item in public:
        if item.kind == "fn":
            found.append(of_function(item, item.name, "Laws" if sources.is_law(item) else "Functions"))
            continue
        found.append(of_other(crate, item))
        if item.name in types:
            found += methods(crate, item.name)
            found += [implementation(each, "Types") for each in implementations(crate, private_traits, lambda each: each.name == item.name)]
    others = implementations(crate, private_traits, lambda each: each.name not in types and trait_of(each) in traits)
    return found + [implementation(each, "Implementations") for each in others]


def implementation(item, group):
    title = f"{item.trait.split('::')[-1] if '<' not in item.trait else item.trait} for {item.name}"
    names = [title, *(f"{item.name}::{child.name}" for child in item.children if child.kind == "fn")]
    return Call(item, title, group, of_implementation(item), names, item.name)


def all_calls():
    """Returns each crate with its public calls, in the order of crates.txt. (Crates of tests alone have none.)"""
    crates = [sources.Crate(name) for name in sources.crates()]
    traits = {item.name for crate in crates for item in crate.public() if item.kind == "trait"}
    return [(crate, calls_of(crate, traits)) for crate in crates]


def shown(call):
    """Returns a call as its source has it: the doc comment, then the declaration or the contract."""
    comment = "".join(f"/// {line}".rstrip() + "\n" for line in call.doc.split("\n")) if call.doc else ""
    return comment + call.code + "\n"


def definitions(call):
    """Returns the definitions of this repository that a call's clauses and its type's invariants name, each with its file."""
    said = "\n".join([text for _, _, text in call.clauses] + re.findall(r"\bghost \w+\b[^;{]*[{=](.*)", call.code))
    imported = sources.imported_definitions(call.item.file)
    return {word: imported[word] for word in re.findall(r"(?<![\w.])[^\W\d]\w*(?:\.[^\W\d]\w*)?", said) for word in (word, word.split(".")[0]) if word in imported}
