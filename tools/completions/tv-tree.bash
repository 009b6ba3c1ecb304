# Made by tools/manuals.py from the options of tv-tree; not to be edited.
_tv_tree() {
    local word=${COMP_WORDS[COMP_CWORD]} before=${COMP_WORDS[COMP_CWORD-1]} words
    if [ "$word" = "=" ]; then
        word=
    elif [ "$before" = "=" ]; then
        before=${COMP_WORDS[COMP_CWORD-2]}
    fi
    COMPREPLY=()
    case $before in
        -p|--passes|--opt|--before|--seconds|--jobs) compopt +o default; return ;;
        --out) compopt -o filenames; mapfile -t COMPREPLY < <(compgen -d -- "$word"); return ;;
        --work) return ;;
    esac
    case ${COMP_WORDS[1]} in
        run) words="-h --help -p --passes --out --allow-marks --opt --before --seconds --jobs" ;;
        list) words="-h --help -p --passes" ;;
        do) words="-h --help --out --opt --before --seconds --jobs" ;;
        table) words="-h --help --out --work --allow-marks" ;;
        *) words="-h --help" ;;
    esac
    case $word in
        -*) mapfile -t COMPREPLY < <(compgen -W "$words" -- "$word") ;;
        *) if [ "$COMP_CWORD" = 1 ]; then mapfile -t COMPREPLY < <(compgen -W "run list do table" -- "$word"); fi ;;
    esac
}
complete -o default -F _tv_tree tv-tree
