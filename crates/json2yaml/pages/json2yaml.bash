# What bash completes the words of json2yaml to: `source json2yaml.bash`.
_json2yaml() {
    local word=${COMP_WORDS[COMP_CWORD]}
    case ${COMP_WORDS[COMP_CWORD - 1]} in
        -o|--output) mapfile -t COMPREPLY < <(compgen -f -- "$word"); return ;;
        --heading|--indent|--width|--depth|--encoding|--line-break|--limit) COMPREPLY=(); return ;;
    esac
    case $word in
        -*) mapfile -t COMPREPLY < <(compgen -W '--output --each --heading --indent --width --depth --encoding --line-break --limit --check --flow --canonical --no-portable --no-document-start --no-indented-sequences --no-literal-blanks --no-unicode --double-quotes --allow-duplicates --deterministic --help --version' -- "$word") ;;
        *) mapfile -t COMPREPLY < <(compgen -f -X '!*.json' -- "$word"; compgen -d -- "$word") ;;
    esac
}
complete -o filenames -F _json2yaml json2yaml
