# Completion of ivycheck's words, for bash.
#
# The first word is a command or an option of the script; behind it come files, the options that the command takes, and
# what `emit` writes.
_ivycheck() {
    local word=${COMP_WORDS[COMP_CWORD]} before=${COMP_WORDS[COMP_CWORD - 1]} limits='--terms --ground --conflicts'
    local at=1 own=
    while [[ ${COMP_WORDS[at]} == --prove || ${COMP_WORDS[at]} == --first-look ]]; do
        at=$((at + 1))
    done
    COMPREPLY=()
    if ((COMP_CWORD <= at)); then
        own='check emit lrat houdini bmc replay sample --which --prove --first-look --sum'
        COMPREPLY=($(compgen -W "$own" -- "$word"))
        return
    fi
    case $before in
        --terms | --ground | --conflicts | --steps) return ;;
    esac
    case ${COMP_WORDS[at]},$word in
        check,-* | houdini,-* | emit,-*) COMPREPLY=($(compgen -W "$limits" -- "$word")) ;;
        bmc,-*) COMPREPLY=($(compgen -W "--steps $limits" -- "$word")) ;;
        sample,*) ;;
        emit,*)
            case $((COMP_CWORD - at)) in
                1) COMPREPLY=($(compgen -f -- "$word")) ;;
                3) COMPREPLY=($(compgen -W 'cnf lrat' -- "$word")) ;;
            esac
            ;;
        *) COMPREPLY=($(compgen -f -- "$word")) ;;
    esac
}
complete -o filenames -F _ivycheck ivycheck ./ivycheck
