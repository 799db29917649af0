# Completion of words for `diag` and `diag_cli` in bash: source tools/complete_diag.bash
_diag_words() {
    local word="${COMP_WORDS[COMP_CWORD]}" before="${COMP_WORDS[COMP_CWORD - 1]}" command="${COMP_WORDS[1]}" option used
    COMPREPLY=()
    if [ "$COMP_CWORD" -eq 1 ]; then
        mapfile -t COMPREPLY < <(compgen -W "diagnose verify generate" -- "$word")
        return
    fi
    case "$command" in
        diagnose)
            if [ "$COMP_CWORD" -le 3 ]; then
                _diag_files "$word" "$([ "$COMP_CWORD" -eq 2 ] && echo uvl || echo conf)"
                return
            fi
            case "$before" in
                --allowance) mapfile -t COMPREPLY < <(compgen -W "10000 100000 1000000" -- "$word") ;;
                --rungs) mapfile -t COMPREPLY < <(compgen -W "0 1 2 3 4" -- "$word") ;;
                --list) mapfile -t COMPREPLY < <(compgen -W "1 2 3 4" -- "$word") ;;
                --ahead) mapfile -t COMPREPLY < <(compgen -W "0 1 2 3 4 5 6" -- "$word") ;;
                *)
                    # each option once
                    used=" ${COMP_WORDS[*]:4:COMP_CWORD-4} "
                    for option in --allowance --rungs --list --ahead --workers --certify; do
                        [[ "$used" == *" $option "* ]] || COMPREPLY+=("$option")
                    done
                    mapfile -t COMPREPLY < <(compgen -W "${COMPREPLY[*]}" -- "$word")
                    ;;
            esac
            ;;
        verify)
            case "$COMP_CWORD" in
                2) _diag_files "$word" uvl ;;
                3) _diag_files "$word" conf ;;
                4) _diag_files "$word" "" ;;
            esac
            ;;
        generate)
            case "$COMP_CWORD" in
                2) mapfile -t COMPREPLY < <(compgen -W "1 2 3" -- "$word") ;;
                3) mapfile -t COMPREPLY < <(compgen -W "400 2000 10000 60000" -- "$word") ;;
                4) mapfile -t COMPREPLY < <(compgen -W "model config report" -- "$word") ;;
            esac
            ;;
    esac
}

# Files with this ending, where there are any, and folders; else all files.
_diag_files() {
    local found=()
    compopt -o filenames 2>/dev/null
    [ -n "$2" ] && mapfile -t found < <(compgen -f -X "!*.$2" -- "$1"; compgen -d -- "$1")
    [ "${#found[@]}" -gt 0 ] || mapfile -t found < <(compgen -f -- "$1")
    COMPREPLY=("${found[@]}")
}

complete -F _diag_words diag ./diag diag_cli
