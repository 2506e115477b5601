# shellcheck shell=bash
# Completes bootcore's command line in bash. To use it, source this file, in ~/.bashrc for example:
#   . PATH-OF-THIS-REPOSITORY/completions/bootcore.bash

_bootcore() {
    local word=${COMP_WORDS[COMP_CWORD]} options='' left='' present=' ' has_file='' at option
    COMPREPLY=()
    if [ "$COMP_CWORD" = 1 ]; then
        mapfile -t COMPREPLY < <(compgen -W 'boot map walk convert explain digest --help' -- "$word")
        return
    fi
    case ${COMP_WORDS[1]} in
        boot) options='--out --order --help' ;;
        map) options='--help' ;;
        walk) options='--help' ;;
        convert) options='--out --help' ;;
        explain) options='--order --help' ;;
        digest) options='--image --help' ;;
        *) return ;;
    esac
    # what stands before the word: options, those with a value with it, and the one file
    for ((at = 2; at < COMP_CWORD; at++)); do
        case " $options " in
            *" ${COMP_WORDS[at]} "*)
                present+="${COMP_WORDS[at]} "
                case ${COMP_WORDS[at]} in --help | --image) ;; *) at=$((at + 1)) ;; esac
                ;;
            *) has_file=yes ;;
        esac
    done
    if ((at > COMP_CWORD)); then # the word is the value of an option
        case ${COMP_WORDS[COMP_CWORD - 1]} in
            --order)
                mapfile -t COMPREPLY < <(compgen -W 'forward reverse' -- "$word")
                return
                ;;
        esac
    else
        for option in $options; do
            if [ "$option" = --help ] && ((COMP_CWORD > 2)); then continue; fi
            case $present in *" $option "*) ;; *) left+=" $option" ;; esac
        done
        if [ -n "$has_file" ] || [[ $word == -* ]]; then
            mapfile -t COMPREPLY < <(compgen -W "$left" -- "$word")
            return
        fi
    fi
    # a folder is completed with a slash, so that its files can follow; this works only if bash itself
    # completes
    compopt -o filenames 2>/dev/null
    mapfile -t COMPREPLY < <(compgen -f -- "$word")
}

complete -F _bootcore bootcore
