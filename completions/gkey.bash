# Completion of gkey's commands and of the files that they read, for bash.
_gkey() {
    local word=${COMP_WORDS[COMP_CWORD]} at=$COMP_CWORD files=0 words=("${COMP_WORDS[@]}")
    COMPREPLY=()
    if [[ ${words[1]} == --large ]] && ((at > 1)); then
        words=("${words[0]}" "${words[@]:2}")
        at=$((at - 1))
        if ((at == 1)); then
            mapfile -t COMPREPLY < <(compgen -W "match prove why check convert merge grow" -- "$word")
            return
        fi
    fi
    if ((at == 1)); then
        mapfile -t COMPREPLY < <(compgen -W "match prove why check convert merge grow demo --help --version --large" -- "$word")
        return
    fi
    case ${words[1]} in
        match | prove | merge | why) files=2 ;;
        grow | check) files=3 ;;
        convert) files=1 ;;
    esac
    case ${words[1]} in
        match | prove | merge | why | grow)
            if ((at == 2)) && [[ $word == -* ]]; then
                mapfile -t COMPREPLY < <(compgen -W "--workers" -- "$word")
                return
            fi
            # (its number is left to the user)
            [[ ${words[2]} != --workers ]] || at=$((at - 2))
            ;;
    esac
    if ((at >= 2 && at <= files + 1)); then
        compopt -o filenames 2>/dev/null
        mapfile -t COMPREPLY < <(compgen -f -- "$word")
    fi
}
complete -F _gkey gkey
