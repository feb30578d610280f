# Completions of mdbimport for bash: formats, options and units. After `<` and
# `>`, and where nothing else fits, they are files.

_mdbimport() {
    local current=${COMP_WORDS[COMP_CWORD]} before=${COMP_WORDS[COMP_CWORD - 1]} word words=''
    COMPREPLY=()
    case $before in
        '<' | '>' | '>>' | '2>' | '&>')
            compopt -o filenames 2> /dev/null || true
            while IFS= read -r word; do COMPREPLY+=("$word"); done < <(compgen -f -- "$current")
            return
            ;;
        --unit) words='s ms us ns' ;;
        --time-of) words='first last' ;;
        --controller | --peripheral | --break | --from | --until) ;;
        --invert-line) words='M S' ;;
        *)
            case ${COMP_WORDS[1]} in
                sigrok) words='--swap --skip-damaged --from --until' ;;
                rows) words='--unit --controller --peripheral --decimal --from --until' ;;
                saleae) words='--controller --peripheral --break --skip-damaged --from --until' ;;
                edges) words='--unit --controller --peripheral --invert --invert-line --skip-damaged --from --until' ;;
                vcd) words='--controller --peripheral --invert --invert-line --skip-damaged --from --until' ;;
                messages) words='--unit --controller --peripheral --time-of --decimal --from --until' ;;
                manual) [ "$COMP_CWORD" -gt 2 ] || words='sigrok rows saleae edges vcd messages manual' ;;
                *) words='sigrok rows saleae edges vcd messages manual' ;;
            esac
            ;;
    esac
    while IFS= read -r word; do COMPREPLY+=("$word"); done < <(compgen -W "$words" -- "$current")
}

complete -o default -F _mdbimport mdbimport
