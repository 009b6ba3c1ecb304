# Made by tools/manuals.py from the options of tv-check; not to be edited.
_tv_check() {
    local word=${COMP_WORDS[COMP_CWORD]} before=${COMP_WORDS[COMP_CWORD-1]} words
    if [ "$word" = "=" ]; then
        word=
    elif [ "$before" = "=" ]; then
        before=${COMP_WORDS[COMP_CWORD-2]}
    fi
    COMPREPLY=()
    case $before in
        --opt|--before|--function|-f|--jobs|-j|--seconds|--turns|--blocks|--bytes|--rounds|--conflicts|--weight) compopt +o default; return ;;
        --keep) compopt -o filenames; mapfile -t COMPREPLY < <(compgen -d -- "$word"); return ;;
    esac
    words="-h --help --opt --before --lower --function -f --jobs -j --seconds --turns --blocks --bytes --rounds --conflicts --weight --json --junit --sarif --html --first --no-trace --keep --allow-marks --version"
    case $word in
        -*) mapfile -t COMPREPLY < <(compgen -W "$words" -- "$word") ;;
    esac
}
complete -o default -F _tv_check tv-check
