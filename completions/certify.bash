# bash completion of certify, written by tools/manuals.py from its help.
_certify() {
    local word=${COMP_WORDS[COMP_CWORD]}
    COMPREPLY=()
    if [ "$COMP_CWORD" -eq 1 ]; then
        mapfile -t COMPREPLY < <(compgen -W "issue show request accept list restore attribute authority revoked check bulk --help --version" -- "$word")
        return
    fi
}
complete -o filenames -F _certify certify
