"""What several files must have in common: the version, the numbers of the header yaml_c.h, and the names that crates export."""
import re

from sources import ROOT, Crate

# The names in the definitions that aren't the header's in lower case.
OTHER_NAMES = {
    "scalar_style any_style": "ANY_SCALAR_STYLE", "collection_style any_layout": "ANY_COLLECTION_STYLE", "encoding None": "ANY_ENCODING",
    "encoding utf16_little": "UTF16LE", "encoding utf16_big": "UTF16BE", "break None": "ANY_BREAK", "break carriage_return_break": "CR",
    "break line_feed_break": "LF", "break both_break": "CRLF",
}


def text_of(path):
    return (ROOT / path).read_text()


def wrong_versions():
    """Returns a line for each version that isn't the header's."""
    header = text_of("crates/yaml_c/include/yaml_c.h")
    numbers = [int(re.search(rf"^#define YAML_C_VERSION_{part} (\d+)$", header, re.M)[1]) for part in ("MAJOR", "MINOR", "PATCH")]
    version = ".".join(map(str, numbers))
    library = int(re.search(r"^\{\n +([\d_]+)\n\}", text_of("crates/yaml_c/src/version.rt"), re.M)[1].replace("_", ""))
    program = re.search(r'VERSION: &str = "([\d.]+) ', text_of("crates/yaml_program/src/version.rt"))[1]
    change = re.search(r"^## ([\d.]+)", text_of("CHANGELOG.md"), re.M)[1]
    wrong = []
    if library != numbers[0] * 10000 + numbers[1] * 100 + numbers[2]:
        wrong.append(f"yaml_c_version returns {library}, but the header yaml_c.h has the version {version}")
    if program != version:
        wrong.append(f"yaml_program has the version {program}, but the header yaml_c.h has {version}")
    if change != version:
        wrong.append(f"CHANGELOG.md begins with the version {change}, but the header yaml_c.h has {version}")
    return wrong


def wrong_header_numbers():
    """Returns a line for each kind, style, encoding and line break whose number isn't that by which the definitions read it."""
    constants = "".join(re.findall(r"^enum yaml_c_(?!status|error)\w+ \{\n(.*?)^\};", text_of("crates/yaml_c/include/yaml_c.h"), re.S | re.M))
    named = {name: int(number) for name, number in re.findall(r"YAML_C_(\w+) = (\d+)", constants)}
    defined = {}
    records = text_of("crates/yaml_c/specs/EventRecords.antt")
    for kind, body in re.findall(r"^(\w+)_(?:numbered number|recorded arena directives event) =\n(.*?)^$", records, re.S | re.M):
        for number, word in re.findall(r"== (\d+) then (?:option_map |Some )?\(?(?:Some )?(\w+)", body):
            defined[OTHER_NAMES.get(f"{kind} {word}", re.sub("_recorded$", "", word).upper())] = int(number)
    nodes = re.findall(r"== (\d+) then (\w+)_recorded ", text_of("crates/yaml_c/specs/NodeRecords.antt"))
    if len(defined) < 20 or len(nodes) < 3:
        return [f"EventRecords.antt and NodeRecords.antt: only {len(defined)} and {len(nodes)} numbers are found"]
    defined.update({f"{word.upper()}_NODE": int(number) for number, word in nodes})
    return [f"yaml_c.h has YAML_C_{name} = {named.get(name)}, but the definitions read {defined.get(name)}"
            for name in sorted(named.keys() | defined.keys()) if named.get(name) != defined.get(name)]


def exported(crate):
    """Returns the names that a crate exports, its own and those of crates below it."""
    there = Crate(crate)
    return {path.split("::")[-1] for path in [*there.exported, *there.handed_on]}


def wrong_exports():
    """Returns a line for each crate that doesn't export the names that the pages promise."""
    wrong = []
    for upper, lower in [("yaml_emitter", ("yaml_base", "yaml_pen", "yaml_mark", "yaml_scalar")), ("yaml_dump", ("yaml_emitter",))]:
        for crate in lower:
            missing = exported(crate) - exported(upper)
            if missing:
                wrong.append(f"{upper} doesn't export these names of {crate}: {', '.join(sorted(missing))}")
    taken = {"Settings", "Quotes", "yaml_error_t"}
    taken |= {name for name in exported("yaml_base") if re.search("^yaml_(encoding|break)_t$|_(ENCODING|BREAK)$", name)}
    for name in sorted(taken ^ exported("yaml_value") & exported("yaml_dump")):
        wrong.append(f"yaml_value {'lacks' if name in taken else 'exports'} {name}")
    return wrong
