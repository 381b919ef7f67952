# Completes the words of `pack` in bash: the ten jobs, the options that the job takes, and their values.
# Source this file, or put it as `pack` into a folder of bash-completion.
_pack() {
    local word=${COMP_WORDS[COMP_CWORD]} before=${COMP_WORDS[COMP_CWORD - 1]}
    local jobs="fit strip bins knapsack reduced front make check audit explain"
    local job="" name="" each options=""

    # bash cuts `--name=value` at the `=` where that is among its word breaks.
    if [ "$before" = "=" ]; then
        name=${COMP_WORDS[COMP_CWORD - 2]}
    elif [ "$word" = "=" ]; then
        name=$before word=""
    else
        name=$before
    fi
    case $name in
        --scales | --proposals | --facts | --bounds)
            COMPREPLY=($(compgen -W "yes no" -- "$word"))
            return
            ;;
        --workers)
            COMPREPLY=($(compgen -W "1 2 4 8 16 32 64" -- "$word"))
            return
            ;;
        --budget)
            COMPREPLY=($(compgen -W "1000 10000 100000 1000000 10000000" -- "$word"))
            return
            ;;
        --number) return ;;
    esac

    for each in "${COMP_WORDS[@]:1:COMP_CWORD-1}"; do
        case " $jobs " in *" $each "*) job=$each ;; esac
    done
    case $job in
        strip) options="--workers --budget --scales --proposals --facts --bounds" ;;
        knapsack) options="--workers --budget --scales --proposals --bounds" ;;
        fit | bins) options="--workers --budget --scales --proposals" ;;
        reduced | front) options="--workers --budget --scales" ;;
        make) options="--workers --budget --scales --number" ;;
        check | audit | explain) options="" ;;
        *)
            COMPREPLY=($(compgen -W "$jobs --workers --budget --scales --number --proposals --facts --bounds" -- "$word"))
            return
            ;;
    esac
    # Each option stands at most once.
    local left=""
    for each in $options; do
        case " ${COMP_WORDS[*]:1:COMP_CWORD-1} " in *" $each "* | *" $each="*) ;; *) left="$left $each" ;; esac
    done
    COMPREPLY=($(compgen -W "$left" -- "$word"))
}
complete -F _pack pack
