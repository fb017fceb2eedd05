# Completion of the command `desk` in bash. The commands and options come from --help of the installed program.

_desk() {
    local cur=${COMP_WORDS[COMP_CWORD]} previous=${COMP_WORDS[COMP_CWORD - 1]} at=1 program help value
    program=$(type -P desk) || return
    # The command may follow --why.
    [ "${COMP_WORDS[1]}" != --why ] || at=2
    if [ "$COMP_CWORD" -le "$at" ]; then
        help=$("$program" --help)
        mapfile -t COMPREPLY < <(compgen -W "$(sed -n '/^Commands:/,/^$/s/^  \([a-z][a-z-]*\).*/\1/p' <<<"$help") --help --version --why" -- "$cur")
        return
    fi
    help=$("$program" "${COMP_WORDS[at]}" --help 2>/dev/null) || return
    # The value of the option before: the current moment, a path, or an algorithm that the help names. Numbers are not completed.
    value=$(sed -n "s/^ *\(-., \)\?$previous <\([A-Z=]*\)>.*/\2/p" <<<"$help")
    case $previous:$value in
    --*:MOMENT) mapfile -t COMPREPLY < <(compgen -W "$(date -u +%Y-%m-%dT%H:%M:%SZ)" -- "$cur") ;;
    --*:FILE | --*:SOCKET | --*:CERT | --*:CRL | --*:PATH | --from:ADDRESS) mapfile -t COMPREPLY < <(compgen -f -- "$cur") ;;
    --*algorithm:*) mapfile -t COMPREPLY < <(compgen -W "$(sed -n "s/^ *$previous <[A-Z]*> .*: //p" <<<"$help" | sed 's/,\| or / /g')" -- "$cur") ;;
    --*:?*) COMPREPLY=() ;;
    *)
        if [[ ${COMP_WORDS[at]} == list && $COMP_CWORD -eq $((at + 2)) ]]; then
            mapfile -t COMPREPLY < <(compgen -W "revoked certificates ending open-requests overdue requests subscribers orders crls" -- "$cur")
        elif [[ $cur == -* ]]; then
            mapfile -t COMPREPLY < <(compgen -W "$(grep -oE -- '^ +(-., )?--[a-z-]+' <<<"$help" | grep -oE -- '--[a-z-]+')" -- "$cur")
        else
            mapfile -t COMPREPLY < <(compgen -f -- "$cur")
        fi
        ;;
    esac
}

complete -o filenames -F _desk desk
