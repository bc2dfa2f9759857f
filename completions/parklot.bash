# Completes the words of `parklot`. In bash and in zsh source this file; in fish source parklot.fish beside it.

_parklot_commands="check explore replay try retrace judge once threads format help"

# What may stand behind an option: nothing where it has no value, or any.
_parklot_values() {
    case $1 in
    --variant) echo "no-look late-count plain-less" ;;
    --depth) echo "32 64" ;;
    --threads | --workers) echo "1 2 4 8" ;;
    --worlds) echo "200000 2000000" ;;
    --columns) echo "80 120" ;;
    esac
}

_parklot_options() {
    local search="--table --columns --stats --progress --threads --worlds"
    case $1 in
    check) echo "$search --every --help" ;;
    explore) echo "$search --depth --variant --help" ;;
    replay) echo "--schedule --schedule-of --variant --every --table --columns --scenario --help" ;;
    try) echo "$search --rows --ends --lost --starved --passes --help" ;;
    retrace) echo "--schedule --schedule-of --rows --table --columns --help" ;;
    judge) echo "--lock --settled --most --help" ;;
    threads) echo "--workers --rounds --help" ;;
    *) echo "--help" ;;
    esac
}

# The words that may come next, for the one that is begun and those before it: none where it is a file's place.
_parklot_words() {
    local begun=$1 last
    shift
    if [ $# -eq 0 ]; then
        echo "$_parklot_commands --help --version prove unproved released"
        return
    fi
    case $1 in
    unproved | released) shift ;;
    esac
    if [ $# -eq 0 ] || { [ $# -eq 1 ] && [ "$1" = help ]; }; then
        echo "$_parklot_commands"
        return
    fi
    case $#$1$begun in
    1format-*) ;;
    1format*) echo "scenario lock" && return ;;
    esac
    for last in "$@"; do :; done
    case $last in
    --schedule-of | --scenario) return ;;
    esac
    case $(_parklot_values "$last")$begun in
    -*) _parklot_options "$1" ;;
    *) _parklot_values "$last" ;;
    esac
}

_parklot() {
    local begun=${COMP_WORDS[COMP_CWORD]} words
    words=$(_parklot_words "$begun" "${COMP_WORDS[@]:1:$((COMP_CWORD - 1))}")
    if [ -n "$words" ]; then
        COMPREPLY=($(compgen -W "$words" -- "$begun"))
    else
        local IFS=$'\n'
        COMPREPLY=($(compgen -f -- "$begun"))
    fi
}

# Fish asks for the words alone.
if [ "${BASH_SOURCE[0]-}" = "$0" ] && [ "${1-}" = words ]; then
    shift
    _parklot_words "$@" | tr ' ' '\n'
    exit
fi
if [ -n "${ZSH_VERSION-}" ]; then
    autoload -U +X bashcompinit
    bashcompinit
fi
complete -o filenames -F _parklot parklot ./parklot
