# Completes cesu8_cli in bash: a command, and then its flavor, cesu8 or mutf8.
_cesu8_cli() {
    local words=''
    case $COMP_CWORD in
        1) words='encode needs decode decode-strict lossy lossy-strict java-write java-read' ;;
        2)
            words='cesu8 mutf8'
            [[ ${COMP_WORDS[1]} != java-* ]] || words=mutf8
            ;;
    esac
    mapfile -t COMPREPLY < <(compgen -W "$words" -- "${COMP_WORDS[COMP_CWORD]}")
}
complete -F _cesu8_cli cesu8_cli
