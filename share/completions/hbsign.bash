# Completion of hbsign for bash, made by share/make from the program's help.

# The words up to the cursor, put together again where bash has cut one at a colon.
_hbsign_words() {
    local rest=${COMP_LINE:0:COMP_POINT} word blanks
    for word in "${COMP_WORDS[@]:0:COMP_CWORD+1}"; do
        blanks=${rest%%[![:space:]]*}
        rest=${rest#"$blanks"}
        [[ $rest = "$word"* ]] || word=$rest
        rest=${rest#"$word"}
        if [ -n "$blanks" ] || [ ${#words[@]} = 0 ]; then words+=("$word"); else words[-1]+=$word; fi
    done
}

_hbsign() {
    local words=() options='' kinds=() last=none kind='' place=0 word current
    local commands='make sign verify retire audit audit-given serve migrate list public'
    local specs='
        lms:H5/W8 lms:H10/W2 lms:H10/W4 lms:H10/W8 lms:H15/W4 lms:H15/W8 lms:H20/W4 hss:H10/W4,H10/W4
        hss:H10/W8,H10/W8 xmss:10 xmss:16 xmss:20'
    COMPREPLY=()
    _hbsign_words
    current=${words[-1]}
    if [ ${#words[@]} -lt 3 ]; then
        mapfile -t COMPREPLY < <(compgen -W "$commands help -h --help -V --version" -- "$current")
        return
    fi
    case ${words[1]} in
    make) options='--format --random -h --help' kinds=('file' 'file' 'spec') ;;
    sign) options='--random -h --help' kinds=('file' 'none' 'file' 'file') ;;
    verify) options='-h --help' kinds=('file' 'file' 'file') ;;
    retire) options='-h --help' kinds=('file' 'none') ;;
    audit) options='--count --tag -h --help' kinds=('file') ;;
    audit-given) options='-h --help' kinds=('file' 'file') last='file' ;;
    serve) options='--random -h --help' kinds=('file') ;;
    migrate) options='-h --help' kinds=('file' 'file') ;;
    list) options='-h --help' kinds=('file' 'file') ;;
    public) options='-h --help' kinds=('file' 'file') ;;
    help) kinds=("$commands") ;;
    esac
    for word in "${words[@]:2:${#words[@]}-3}"; do
        if [ -n "$kind" ]; then kind= && continue; fi
        case $word in
        --count) kind='none' ;;
        --format) kind='1 2' ;;
        --random) kind='file' ;;
        --tag) kind='none' ;;
        --) options= ;;
        -?*) [ -n "$options" ] || place=$((place + 1)) ;;
        *) place=$((place + 1)) ;;
        esac
    done
    [ -n "$kind" ] || kind=${kinds[place]-$last}
    [[ $current = -* && -n $options ]] && kind=$options
    # where a file may stand bash completes as ever, by the options of `complete` below
    [ "$kind" = file ] && return
    compopt +o default +o bashdefault 2>/dev/null
    [ "$kind" = none ] && return
    [ "$kind" = spec ] && kind=$specs
    mapfile -t COMPREPLY < <(compgen -W "$kind" -- "$current")
    # what is before a colon is on the line already
    if [[ $current = *:* && $COMP_WORDBREAKS = *:* ]]; then
        COMPREPLY=("${COMPREPLY[@]#"${current%:*}:"}")
    fi
}

complete -o bashdefault -o default -F _hbsign hbsign
