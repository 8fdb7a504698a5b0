# Completion of jinthbao, jinthbao-spool, jinthbao-finish and jinthbao-view in bash, for
# /usr/share/bash-completion/completions

_jinthbao_profiles() {
    printf '%s\n' tiny1 tiny p360k p360cmyk p720cmyk
    # another profile is a file of the current folder
    grep -l --binary-files=text -m1 -E '^escp2-profile [12]' -- * 2>/dev/null
}

# _jinthbao_value COMMAND KEY: the values of a command's key that are worth a list
_jinthbao_value() {
    case $2 in
    profile) _jinthbao_profiles ;;
    kernel) printf '%s\n' fs jjn stucki ;;
    kind) printf '%s\n' gray black rgb black1 cmyk ;;
    grain) printf '%s\n' 0 8 16 32 ;;
    workers) printf '%s\n' 1 2 4 8 ;;
    shingle | progress) printf '%s\n' 0 1 ;;
    pages) [[ $1 != finish ]] || printf '%s\n' 0 1 ;;
    stop) compgen -f ;;
    esac
}

# _jinthbao_keys COMMAND: its keys
_jinthbao_keys() {
    case $1 in
    print) printf '%s\n' profile kernel grain workers cap shingle dead ;;
    dots) printf '%s\n' profile most ;;
    list) printf '%s\n' most ;;
    profile) printf '%s\n' profile ;;
    trial) printf '%s\n' profile kernel grain workers seed pages width height kind shingle dead ;;
    spool) printf '%s\n' profile kernel grain workers send ;;
    finish) printf '%s\n' pages progress stop ;;
    esac
}

# _jinthbao_words COMMAND: the keys that no word has yet, each with its =, or the values of the word's key
_jinthbao_words() {
    # bash splits a word at =, so the line is looked at up to the cursor
    local line=${COMP_LINE:0:COMP_POINT} key value word
    word=${line##*[[:blank:]]}
    if [[ $word == *=* ]]; then
        key=${word%%=*}
        # a file's name may have blanks, and what the shell would run
        [[ $key != @(profile|stop) ]] || compopt -o filenames
        while IFS= read -r value; do
            [[ $value != "${word#*=}"* ]] || COMPREPLY+=("$value")
        done < <(_jinthbao_value "$1" "$key")
        return
    fi
    compopt -o nospace
    for key in $(_jinthbao_keys "$1"); do
        # send alone may stand more than once
        if [[ $key == send || " $COMP_LINE" != *[[:blank:]]"$key="* ]]; then
            COMPREPLY+=($(compgen -W "$key=" -- "$word"))
        fi
    done
}

# _jinthbao_cause PROGRAM: the word behind --help, a cause that the program's help lists at its end
_jinthbao_cause() {
    local causes
    ((COMP_CWORD == 2)) || return
    causes=$("$1" --help 2>/dev/null | sed '1,/--help CAUSE/d' | grep -oE '[A-Z][A-Za-z]+' | sort -u)
    COMPREPLY=($(compgen -W "$causes" -- "${COMP_WORDS[2]}"))
}

_jinthbao() {
    COMPREPLY=()
    if ((COMP_CWORD == 1)); then
        COMPREPLY=($(compgen -W "print dots list profile trial --help --version" -- "${COMP_WORDS[1]}"))
    elif [[ ${COMP_WORDS[1]} == --help ]]; then
        _jinthbao_cause "$1"
    else
        _jinthbao_words "${COMP_WORDS[1]}"
    fi
}

# a program without commands, the spool or the finisher, whose keys go by the end of its name
_jinthbao_program() {
    COMPREPLY=()
    if ((COMP_CWORD > 1)) && [[ ${COMP_WORDS[1]} == --help ]]; then
        _jinthbao_cause "$1"
    else
        _jinthbao_words "${1##*-}"
        ((COMP_CWORD > 1)) || COMPREPLY+=($(compgen -W "--help --version" -- "${COMP_WORDS[1]}"))
    fi
}

_jinthbao_view() {
    local word=${COMP_WORDS[COMP_CWORD]}
    COMPREPLY=()
    case ${COMP_WORDS[COMP_CWORD - 1]} in
    -p | --profile) COMPREPLY=($(compgen -W "$(_jinthbao_profiles)" -- "$word")) ;;
    -r | --resolution) COMPREPLY=($(compgen -W "36 72 144" -- "$word")) ;;
    -s | --sheet) ;;
    *)
        if [[ $word == -* ]]; then
            COMPREPLY=($(compgen -W "--profile --resolution --sheet --output --help" -- "$word"))
        else
            compopt -o filenames
            mapfile -t COMPREPLY < <(compgen -f -- "$word")
        fi
        ;;
    esac
}

complete -F _jinthbao jinthbao
complete -F _jinthbao_program jinthbao-spool jinthbao-finish
complete -F _jinthbao_view jinthbao-view
