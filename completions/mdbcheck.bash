# Completions of mdbcheck for bash: commands, options, devices and the goals of `explain`. After `<`
# and `>`, and where nothing else fits, they are files. Source this file, or put it where
# bash-completion looks, as `make install` does.

_mdbcheck() {
    local current=${COMP_WORDS[COMP_CWORD]} devices='changer bill cashless cashless-2'
    local accounts='coins-in bills-in paid-out approved sold approved-2 sold-2'
    local before='' command='' option='' goals=0 word at words=''
    COMPREPLY=()

    # What stands before the word: the command, the option whose value comes, and how much of a goal.
    # Bash splits at `=`, `<` and `>`.
    for ((at = 1; at < COMP_CWORD; at++)); do
        word=${COMP_WORDS[at]}
        case $before in
            '<' | '>' | '>>' | '2>' | '&>') before=; continue ;;
        esac
        before=$word
        case $word in
            = | '<' | '>' | '>>' | '2>' | '&>') ;;
            --without | --setup) option=$word ;;
            -*) option= ;;
            *)
                if [ -n "$option" ]; then option=
                elif [ -z "$command" ]; then command=$word
                else goals=$((goals + 1)); fi
                ;;
        esac
    done
    if [ "$current" = = ]; then current=; fi

    case $before in
        '<' | '>' | '>>' | '2>' | '&>')
            compopt -o filenames 2> /dev/null || true
            while IFS= read -r word; do COMPREPLY+=("$word"); done < <(compgen -f -- "$current")
            return
            ;;
    esac

    if [ -n "$option" ]; then
        words=$devices
        current=${current#[\'\"]} # a value of --setup stands in quotes
    else
        case $command in
            '') words='check survey show explain replay manual' ;;
            manual) [ $goals -gt 0 ] || words='check survey show explain replay manual' ;;
            check | survey | show) words='--joined --extended --json --setup --without' ;;
            replay) words='--extended --json --without' ;;
            explain)
                case $goals in
                    0) words=$accounts ;;
                    1) words='device controller difference' ;;
                    2) words='least greatest' ;;
                esac
                case $current in -*) words='--extended --without' ;; esac
                ;;
        esac
    fi
    while IFS= read -r word; do COMPREPLY+=("$word"); done < <(compgen -W "$words" -- "$current")
}

complete -o default -F _mdbcheck mdbcheck
