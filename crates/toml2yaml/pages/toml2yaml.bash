# What bash completes the words of toml2yaml to: `source toml2yaml.bash`.
_toml2yaml() {
    local word=${COMP_WORDS[COMP_CWORD]}
    case ${COMP_WORDS[COMP_CWORD - 1]} in
        -o|--output) mapfile -t COMPREPLY < <(compgen -f -- "$word"); return ;;
        --heading|--indent|--width|--depth|--encoding|--line-break|--limit) COMPREPLY=(); return ;;
    esac
    case $word in
        -*) mapfile -t COMPREPLY < <(compgen -W '--output --each --heading --indent --width --depth --encoding --line-break --limit --check --flow --canonical --no-portable --no-document-start --no-indented-sequences --no-literal-blanks --no-unicode --double-quotes --help --version' -- "$word") ;;
        *) mapfile -t COMPREPLY < <(compgen -f -X '!*.toml' -- "$word"; compgen -d -- "$word") ;;
    esac
}
complete -o filenames -F _toml2yaml toml2yaml
