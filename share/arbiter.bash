# Completions of arbiter for bash.
_arbiter() {
    local word=${COMP_WORDS[COMP_CWORD]} before=${COMP_WORDS[COMP_CWORD - 1]} words= front=
    local commands="check format enter pair boards candidates explain standings sheet help"
    COMPREPLY=()
    case $before in
        '<' | '>' | '>>') compopt -o default; return ;;
        --round | --rounds | --steps | --bracket | --from | --count | --player | --instead) return ;;
        --initial) words="white black" ;;
        --bye) words="0 1 2" ;;
        --by) words="direct buchholz sb" front=${word%"${word##*,}"} ;;
        *)
            case ${COMP_CWORD},${COMP_WORDS[1]} in
                1,*) words="$commands --help --version" ;;
                2,help) words=$commands ;;
                *,check) words="--notes --bye --help" ;;
                *,format) words="--round --points --renumber --ranks --by --bye --help" ;;
                *,enter) words="--round --correct --bye --help" ;;
                *,pair) words="--round --rounds --initial --steps --report --names --bye --help" ;;
                *,boards) words="--round --names --bye --help" ;;
                *,candidates) words="--bracket --from --count --round --rounds --initial --steps --bye --help" ;;
                *,explain) words="--player --instead --round --rounds --initial --steps --words --bye --help" ;;
                *,standings) words="--round --by --names --games --bye --help" ;;
                *,sheet) words="--round --by --bye --help" ;;
            esac
            ;;
    esac
    mapfile -t COMPREPLY < <(compgen -P "$front" -W "$words" -- "${word#"$front"}")
}
complete -F _arbiter arbiter
