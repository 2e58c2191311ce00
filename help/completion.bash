# Completes the words of nozgurt, chart and station: commands, then files by what stands in their place, and beams.

# The beams of a network's file.
_nozgurt_beams() {
    tr -d '\n' 2>/dev/null <"$1" | sed -n 's/.*"beams"[[:space:]]*:[[:space:]]*\[\([^]]*\)\].*/\1/p' | tr -d '",'
}

_nozgurt() {
    local program=${COMP_WORDS[0]##*/} word=${COMP_WORDS[COMP_CWORD]} place words='' suffixes='' suffix
    place=$program:$COMP_CWORD
    [ "$COMP_CWORD" -le 1 ] || place=$program:${COMP_WORDS[1]}:$COMP_CWORD
    COMPREPLY=()
    case $place in
    # the cases
    esac
    if [ -n "$words" ]; then
        [ "$COMP_CWORD" -gt 1 ] || words="$words help --help --version"
        mapfile -t COMPREPLY < <(compgen -W "$words" -- "$word")
        return
    fi
    compopt -o filenames 2>/dev/null
    for suffix in $suffixes; do
        mapfile -t -O "${#COMPREPLY[@]}" COMPREPLY < <(compgen -f -X "!*$suffix" -- "$word")
    done
    if [ "${#COMPREPLY[@]}" -gt 0 ]; then
        mapfile -t -O "${#COMPREPLY[@]}" COMPREPLY < <(compgen -d -- "$word")
    else
        mapfile -t COMPREPLY < <(compgen -f -- "$word")
    fi
}
complete -F _nozgurt nozgurt chart station
