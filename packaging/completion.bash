# bash completion for qwkdoor and its scripts. Commands, their words and options are those of the page that `--help`
# prints, so that they are what the program has. In a checkout: `. packaging/completion.bash`.

# Prints the options of a command's page, a line each, and behind each the word that follows it.
_qwkdoor_options() {
    "$1" --help 2>/dev/null | awk '
        /^ ? ?-[-a-z]+(,| |$)/ {
            for (at = 1; sub(/,$/, "", $at); at++)
                print $at
            print $at ($(at + 1) ~ /^[A-Z]+$/ ? " " $(at + 1) : "")
        }'
}

# Prints the commands of qwkdoor's page, or, where a command and a place are given, the word that stands there.
_qwkdoor_commands() {
    "$1" --help 2>/dev/null | awk -v command="${2-}" -v place="${3-}" '
        /^commands:/ { inside = 1; next }
        /^  --/ { exit }
        !inside || !/^  [a-z]/ { next }
        command == "" && !($1 in said) { said[$1]; print $1 }
        $1 == command && $(place + 1) ~ /^[A-Z]+$/ { print $(place + 1); exit }'
}

# Completes words of a list.
_qwkdoor_reply() {
    mapfile -t -O "${#COMPREPLY[@]}" COMPREPLY < <(compgen -W "$1" -- "$2")
}

# Completes names of the file system.
_qwkdoor_paths() {
    compopt -o filenames 2>/dev/null
    mapfile -t -O "${#COMPREPLY[@]}" COMPREPLY < <(compgen "$1" -- "$2")
}

# Completes names below the shelf: files, folders, or what is in front of the .JHR of a base.
_qwkdoor_below() {
    local kind=$1 shelf=$2 path name
    compopt -o nospace 2>/dev/null
    while IFS= read -r path; do
        name=${path#"$shelf"/}
        case $kind in
        FOLDER) [[ ! -d $path ]] || COMPREPLY+=("$name") ;;
        PREFIX) [[ $path != *.JHR ]] || COMPREPLY+=("${name%.JHR}") ;;
        *) [[ -d $path ]] || COMPREPLY+=("$name") ;;
        esac
        [[ $kind = FOLDER || ! -d $path ]] || COMPREPLY+=("$name/")
    done < <(compgen -f -- "$shelf/$3")
}

# Completes the users of the list of callers, whose names may have blanks.
_qwkdoor_users() {
    local user
    while IFS= read -r user; do
        [[ $user = "$2"* ]] || continue
        if [[ ${COMP_WORDS[COMP_CWORD]} = [\"\']* ]]; then
            COMPREPLY+=("$user")
        else
            COMPREPLY+=("$(printf '%q' "$user")")
        fi
    done < <(sed -n 's/^ *"\([^"]*\)".*/\1/p' "$1/mail/callers" 2>/dev/null)
}

# Completes the words of qwkdoor.
_qwkdoor() {
    local current=$2 shelf=${COMP_WORDS[2]-} kind
    shelf=${shelf/#\~/$HOME}
    COMPREPLY=()
    case $COMP_CWORD in
    1)
        _qwkdoor_reply "$(_qwkdoor_options "$1" | cut -d ' ' -f 1)" "$current"
        _qwkdoor_paths -d "$current"
        return
        ;;
    2)
        case ${COMP_WORDS[1]} in
        --help) _qwkdoor_reply "$(_qwkdoor_commands "$1")" "$current" ;;
        -*) ;;
        *) _qwkdoor_paths -d "$current" ;;
        esac
        return
        ;;
    3)
        [[ ${COMP_WORDS[1]} = -* ]] || _qwkdoor_reply "$(_qwkdoor_commands "$1")" "$current"
        return
        ;;
    esac
    kind=$(_qwkdoor_commands "$1" "${COMP_WORDS[3]}" $((COMP_CWORD - 3)))
    case $kind in
    FILE | FOLDER | PREFIX | TEXT | SHEET | REP) _qwkdoor_below "$kind" "$shelf" "$current" ;;
    USER) _qwkdoor_users "$shelf" "$current" ;;
    FLAGS) _qwkdoor_reply 'n -' "$current" ;;
    CONFS) _qwkdoor_reply 'all' "$current" ;;
    esac
}

# Completes the names of the callers' folders, of the list in whichever of the words is the shelf.
_qwkdoor_callers() {
    local word names=
    local line='s/^[ \t]*"[^"]*"[ \t]*[0-9]\{1,\}[ \t]\{1,\}\([^ \t\r]*\).*/\1/p'
    for word in "${COMP_WORDS[@]:1}"; do
        names+=" $(sed -n "$line" "${word/#\~/$HOME}/mail/callers" 2>/dev/null)"
    done
    _qwkdoor_reply "$names" "$1"
}

# Completes the words of a script: its options, and paths. What follows an option isn't a path.
_qwkdoor_script() {
    COMPREPLY=()
    if [[ $3 = --caller ]]; then
        _qwkdoor_callers "$2"
        return
    fi
    ! _qwkdoor_options "$1" | grep -q -e "^$3 " || return
    if [[ $2 = -* ]]; then
        _qwkdoor_reply "$(_qwkdoor_options "$1" | cut -d ' ' -f 1)" "$2"
        return
    fi
    case $1 in
    *read) _qwkdoor_paths -f "$2" ;;
    *) _qwkdoor_paths -d "$2" ;;
    esac
}

complete -F _qwkdoor qwkdoor
complete -F _qwkdoor_script qwkdoor-day qwkdoor-read qwkdoor-toss qwkdoor-upkeep bin/install
