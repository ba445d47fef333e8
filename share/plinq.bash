# Completion for bash: source this file, or copy it as plinq to a folder of bash-completion.
_plinq() {
    local at=$COMP_CWORD word=${COMP_WORDS[COMP_CWORD]} words
    COMPREPLY=()
    # (bash takes --merge=not for three words)
    if [ "$word" = = ]; then
        word=
    elif [ "${COMP_WORDS[at - 1]}" = = ]; then
        at=$((at - 1))
    fi
    case ${COMP_WORDS[at - 1]}$word in
        # (after a redirection bash completes files itself)
        *[\<\>]*)
            compopt -o default
            return
            ;;
    esac
    case ${COMP_WORDS[at - 1]} in
        --merge) words='not auto full default' ;;
        --workers) words=auto ;;
        --cancel-after) words='' ;;
        *)
            if [ "$COMP_CWORD" = 1 ]; then
                words='run seq plan parts history lines --help --version'
            else
                words='--workers --merge --help'
                case ${COMP_WORDS[1]} in
                    run) words="$words --plain --cancel-after" ;;
                    seq) words="$words --plain" ;;
                    # (its other words are a query and files)
                    lines)
                        words='--workers --help'
                        [[ $word == -* ]] || compopt -o default
                        [[ $word == -* ]] || words=
                        ;;
                esac
            fi
            ;;
    esac
    mapfile -t COMPREPLY < <(compgen -W "$words" -- "$word")
}
complete -F _plinq plinq
