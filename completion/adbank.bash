# Completion of adbank's words in bash: a command, and then its files. adbank takes no options.

_adbank_files() {
    compopt -o filenames
    mapfile -t COMPREPLY < <(compgen "$@")
}

_adbank() {
    local word=${COMP_WORDS[COMP_CWORD]} entries
    COMPREPLY=()
    case $COMP_CWORD,${COMP_WORDS[1]} in
        1,*) mapfile -t COMPREPLY < <(compgen -W 'compile check bound decompile play make block' -- "$word") ;;
        2,compile | 2,check | 2,bound) _adbank_files -f -X '!*.toml' -o plusdirs -- "$word" ;;
        2,block | 3,block | 3,play | 3,decompile | 4,decompile) _adbank_files -f -- "$word" ;;
        2,play | 2,decompile) mapfile -t COMPREPLY < <(compgen -W 'brr vag ima' -- "$word") ;;
        4,play)
            # an image tells how many entries it has; other files have one
            if [[ ${COMP_WORDS[2]} != brr ]]; then entries=1; else entries=$(od -An -v -t u1 -j 6 -N 1 -- "${COMP_WORDS[3]}" 2>/dev/null); fi
            [[ -z $entries ]] || mapfile -t COMPREPLY < <(compgen -W "$(seq 0 $((entries - 1)))" -- "$word")
            ;;
    esac
}

complete -F _adbank adbank
