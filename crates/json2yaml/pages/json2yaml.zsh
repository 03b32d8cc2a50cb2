#compdef json2yaml
# What zsh completes the words of json2yaml to, as the file `_json2yaml` in a folder of `fpath`.
_arguments \
    '(-o --output)'{-o+,--output=}'[The file to write in place of standard output]:FILE:_files' \
    '--each[Writes each file to one beside it, whose name ends in .yaml in place of .json]' \
    '--heading=[Writes a text before all else, each line of it as a comment, after # and a space]:TEXT:' \
    '--indent=[Columns for each level, 2 to 9]:COLUMNS:' \
    '--width=[Folds a text of several words at the first space past this column, so a line may be longer]:COLUMN:' \
    '--depth=[How deep arrays and objects may nest]:LEVELS:' \
    '--encoding=[The encoding of the output]:NAME:(utf-8 utf-16le utf-16be)' \
    '--line-break=[The break that ends each line, but the lines of --heading, which end with LF]:NAME:(lf crlf cr)' \
    '--limit=[The most bytes that a stream may have, without its heading]:BYTES:' \
    '--check[Writes nothing, and compares what would be written by --output or by --each with what is there]' \
    '--flow[Writes arrays and objects between brackets, as in JSON, and not a line for each item]' \
    '--canonical[Writes in canonical mode]' \
    '--no-portable[Turns portable mode off]' \
    '--no-document-start[Writes no --- before the first document unless --canonical is given, and turns portable mode off, but for one rule]' \
    '--no-indented-sequences[Leaves the items of a list in the column of the name that the list belongs to, as libyaml does, and doesn'\''t indent them]' \
    '--no-literal-blanks[Quotes a text of several lines if it has a tab, or a space at the end of a line, as libyaml does, and writes it no block]' \
    '--no-unicode[Writes ASCII alone]' \
    '--double-quotes[Writes texts that must be quoted in double quotes, not in single ones]' \
    '--allow-duplicates[Lets a name come several times in one object, which is refused otherwise]' \
    '--deterministic[Writes the canonical bytes of the value of one text, as UTF-8]' \
    '(-h --help)'{-h,--help}'[Print help (see a summary with '\''-h'\'')]' \
    '(-V --version)'{-V,--version}'[Print version]' \
    '*:FILE:_files -g "*.json"'
