# bash completion of shelf, written by tools/manuals.py from its help.
_shelf() {
    local word=${COMP_WORDS[COMP_CWORD]}
    COMPREPLY=()
    if [ "$COMP_CWORD" -eq 1 ]; then
        mapfile -t COMPREPLY < <(compgen -W "tbs seal lint explain path register revoke list find renew --help --version" -- "$word")
        return
    fi
    local options=--help
    case ${COMP_WORDS[1]} in
        tbs) options="--revoked --strict --out --register --help" ;;
        seal) options="--signature --revoked --der --strict --out --register --serial --list --help" ;;
        lint) options="--json --order --revoked --strict --help" ;;
        explain) options="--json --out --help" ;;
        revoke) options="--register --serial --reason --time --invalidity-date --help" ;;
        list) options="--register --days --delta --time --digest --points --scope --strict --out --help" ;;
        find) options="--register --serial --name --expires-within --revoked --on-hold --pending --json --pem --out --help" ;;
        renew) options="--register --serial --days --out --help" ;;
    esac
    if [[ $word == -* ]]; then
        mapfile -t COMPREPLY < <(compgen -W "$options" -- "$word")
        return
    fi
    mapfile -t COMPREPLY < <(compgen -f -- "$word")
}
complete -o filenames -F _shelf shelf
