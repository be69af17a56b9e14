# Completion of ivyview's words, for bash.
#
# The first word is a command, or asks for help or the version; behind it come files and the options that the command
# takes.
_ivyview() {
    local word=${COMP_WORDS[COMP_CWORD]} before=${COMP_WORDS[COMP_CWORD - 1]} limits='--terms --ground --conflicts'
    COMPREPLY=()
    if ((COMP_CWORD <= 1)); then
        COMPREPLY=($(compgen -W 'check bmc houdini why replay --help --version' -- "$word"))
        return
    fi
    case $before in
        --terms | --ground | --conflicts | --steps) return ;;
    esac
    case ${COMP_WORDS[1]},$word in
        check,-* | houdini,-*) COMPREPLY=($(compgen -W "$limits --lean --dot --json" -- "$word")) ;;
        bmc,-*) COMPREPLY=($(compgen -W "--steps $limits --lean --dot --json" -- "$word")) ;;
        why,-*) COMPREPLY=($(compgen -W "$limits --json" -- "$word")) ;;
        replay,-*) COMPREPLY=($(compgen -W "--json" -- "$word")) ;;
        *) COMPREPLY=($(compgen -f -- "$word")) ;;
    esac
}
complete -o filenames -F _ivyview ivyview ./ivyview
