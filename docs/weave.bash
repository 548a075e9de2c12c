# Completion of the commands and keys of weave for bash: `source docs/weave.bash`, or install it as
# /usr/share/bash-completion/completions/weave.
_weave() {
    local word=${COMP_WORDS[COMP_CWORD]} before=${COMP_WORDS[COMP_CWORD-1]} keys key number
    local given=" ${COMP_WORDS[*]} "
    COMPREPLY=()
    if [ "$COMP_CWORD" -eq 1 ]; then
        mapfile -t COMPREPLY < <(compgen -W "grow quilt loop check trial upgrade tile merge transfer" -- "$word")
        return
    fi
    # The value of a key: bash takes `=` for a word of its own.
    if [ "$word" = "=" ]; then
        before=${COMP_WORDS[COMP_CWORD-1]} word=
    elif [ "$before" = "=" ]; then
        before=${COMP_WORDS[COMP_CWORD-2]}
    else
        before=
    fi
    case $before in
        sample* | target | marks | out | map | record | newmap | newrecord)
            # With this bash puts a slash after a folder, and marks blanks in names.
            compopt -o filenames
            word=${word//\\ / }
            mapfile -t COMPREPLY < <(compgen -f -- "${word#[\"\']}")
            return ;;
        place)
            mapfile -t COMPREPLY < <(compgen -W "grid random whole sub" -- "$word")
            return ;;
        turns)
            mapfile -t COMPREPLY < <(compgen -W "none all" -- "$word")
            return ;;
        wrap)
            mapfile -t COMPREPLY < <(compgen -W "x y xy f xyf" -- "$word")
            return ;;
        taps)
            mapfile -t COMPREPLY < <(compgen -W "0 2 4" -- "$word")
            return ;;
        ?*)
            return ;;
    esac
    case ${COMP_WORDS[1]} in
        grow) keys="sample= sample2= out= map= record= width= height= frames= place= box= overlap= tol= rounds= seed= turns=" ;;
        quilt) keys="sample= out= map= record= width= height= block= overlap= tol= seed=" ;;
        transfer) keys="sample= target= out= map= record= block= overlap= tol= alpha= seed=" ;;
        loop) keys="sample= out= map= record= length= taps= gap=" ;;
        merge) keys="sample= sample2= marks= out= map=" ;;
        check) keys="sample= sample2= out= map= record= turns=" ;;
        trial) keys="n= width= height= place= box= overlap= tol= rounds= seed=" ;;
        upgrade) keys="map= record= newmap= newrecord=" ;;
        tile) keys="sample= out= map= width= height= frames= wrap= box= overlap= tol= seed=" ;;
        *) return ;;
    esac
    # Of several samples the next one, up to sample16, once the one before it is given.
    if [[ $keys == *sample2=* ]]; then
        for number in {3..16}; do
            [[ $given == *" sample$((number - 1)) = "* ]] || break
            keys+=" sample$number="
        done
    fi
    # Each key may be given once.
    for key in $keys; do
        [[ $given == *" ${key%=} = "* ]] && keys=${keys/"$key"/}
    done
    compopt -o nospace
    mapfile -t COMPREPLY < <(compgen -W "$keys" -- "$word")
}
complete -F _weave weave
