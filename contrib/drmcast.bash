# Completion for Bash: the commands of drmcast, their options, and names of files where one is wanted; the options of drmpaths.

# The words of the line up to the cursor, into the array words; the last is the one that is completed. Bash itself would cut them at
# colons, as in pft:2:1400 and 127.0.0.1:5000.
_drmcast_words() {
    local line=${COMP_LINE:0:COMP_POINT}
    read -ra words <<< "$line"
    case $line in
        *[[:space:]]) words+=('') ;;
    esac
}

# What of these begins as the last word does. Bash puts an answer in the place of what stands behind the last colon of that word.
_drmcast_among() {
    local word=${words[-1]} before=
    case $COMP_WORDBREAKS:$word in
        *:*:*) before=${word%"${word##*:}"} ;;
    esac
    mapfile -t COMPREPLY < <(compgen -W "$1" -- "$word")
    COMPREPLY=("${COMPREPLY[@]#"$before"}")
}

# The name of a file.
_drmcast_file() {
    compopt -o filenames 2> /dev/null
    mapfile -t COMPREPLY < <(compgen -f -- "${COMP_WORDS[COMP_CWORD]}")
}

_drmcast() {
    local common='--window --reach --first --frames' words
    local carries='plain pft:0:1400 pft:1:1400 pft:2:1400 pft:3:1400 pft:4:1400 pft:5:1400'
    COMPREPLY=()
    _drmcast_words
    local at=$((${#words[@]} - 1))
    if [ "$at" -le 1 ]; then
        _drmcast_among 'fac check capacity agree serve receive count air show convert gate pack unpack texts exercise'
        return
    fi
    case ${words[at - 1]} in
        --to | --pace | --from | --until | --live | --window | --reach | --first | --frames | --idle | --limit) return ;;
    esac
    case ${words[1]}:$at:${words[at]} in
        serve:*:-*) _drmcast_among '--to --pace --from --until --live' ;;
        receive:*:-* | count:*:-* | gate:*:-*) _drmcast_among "$common --idle --limit" ;;
        convert:*:-* | unpack:*:-* | texts:*:-*) _drmcast_among "$common" ;;
        air:*:-*) _drmcast_among '--window' ;;
        convert:2:* | gate:4:*) _drmcast_among "$carries" ;;
        check:2:* | capacity:2:* | agree:2:* | agree:3:* | serve:2:* | air:2:* | air:3:*) _drmcast_file ;;
    esac
}

# Where nothing of its own is to be completed, as behind < and >, Bash completes names of files.
complete -o default -F _drmcast drmcast

_drmpaths() {
    local words
    COMPREPLY=()
    _drmcast_words
    case ${words[-2]}:${words[-1]} in
        --window:* | --reach:* | --first:* | --frames:* | --idle:* | --limit:*) ;;
        *:-*) _drmcast_among '--window --reach --first --frames --idle --limit' ;;
    esac
}

complete -o default -F _drmpaths drmpaths
