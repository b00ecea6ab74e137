# Completion of room-desk for bash: source this file, or put it into
# ~/.local/share/bash-completion/completions/room-desk.
_room_desk() {
    local word=${COMP_WORDS[COMP_CWORD]} before=${COMP_WORDS[COMP_CWORD-1]} command=${COMP_WORDS[1]} options
    if [ "$COMP_CWORD" -eq 1 ]; then
        COMPREPLY=($(compgen -W "render check show picture new compile convert help --help --version" -- "$word"))
        return
    fi
    case $before in
    -f | --format) COMPREPLY=($(compgen -W "wav wav16 raw text" -- "$word")); return ;;
    --color) COMPREPLY=($(compgen -W "auto always never" -- "$word")); return ;;
    --silent) COMPREPLY=(); return ;;
    esac
    case $command in
    render) options="--output --format --quiet --visitor --any-rate" ;;
    check) options="--quiet --silent --visitor --any-rate" ;;
    show) options="--output --sheet --visitor --any-rate" ;;
    picture) options="--output --visitor --any-rate" ;;
    new) options="--output" ;;
    compile) options="--output --samples --visitor-samples --quiet --visitor --any-rate" ;;
    help) COMPREPLY=($(compgen -W "render check show picture new compile convert" -- "$word")); return ;;
    esac
    case $word in
    -*) COMPREPLY=($(compgen -W "$options --color --help" -- "$word")) ;;
    *) compopt -o filenames; COMPREPLY=($(compgen -f -- "$word")) ;;
    esac
}
complete -F _room_desk room-desk
