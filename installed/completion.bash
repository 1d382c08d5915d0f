# Completion of cip's commands and options for bash.
_cip() {
    local word=${COMP_WORDS[COMP_CWORD]} before=${COMP_WORDS[COMP_CWORD - 1]} words
    if [ "$COMP_CWORD" -eq 1 ]; then
        words="annotate explain make trial set mirror groups axes help --help --version"
    else
        case $before in
            --rule1b) words="2013 2018" ;;
            --letter) words="R S r s" ;;
            --*) words="" ;;
            *) words=$(_cip_options "${COMP_WORDS[1]}") ;;
        esac
    fi
    mapfile -t COMPREPLY < <(compgen -W "$words" -- "$word")
}

# The options of a command that aren't given yet.
_cip_options() {
    local option
    for option in $(_cip_all_options "$1"); do
        [[ " ${COMP_WORDS[*]} " == *" $option "* ]] || echo "$option"
    done
}

_cip_all_options() {
    case $1 in
        annotate | explain | mirror | groups | axes) echo --nodes --workers --rule1b ;;
        make) echo --start --records ;;
        trial) echo --start --records --nodes --workers --rule1b ;;
        set) echo --record --atom --letter --nodes --workers --rule1b ;;
    esac
}

complete -F _cip cip
