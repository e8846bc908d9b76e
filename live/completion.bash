# Completion for bash of roam, mux, attach, pane_shells and relay. Source this file, or install it into a directory of bash-completion under
# each of these names.

# Print the names of the running sessions, by the `mux` of the command line.
_roam_mux_names() {
    "$@" ls 2> /dev/null | while read -r name _; do echo "$name"; done
}

# Print the numbers of a session's windows.
_roam_mux_windows() {
    "${@:2}" list-windows "$1" 2> /dev/null | while read -r number _; do echo "$number"; done
}

# What follows is written by tools/completions.
_roam_mux_words="attach new ls list list-windows new-window rename-window clients watch kill send paste capture log buffer env cmd upgrade settings ssh help --help --version"

# The options of a word of mux.
_roam_mux_options() {
    case $1 in
    attach) echo "-d --predict --help" ;;
    new) echo "-d --predict --help" ;;
    new-window) echo "-n --help" ;;
    kill) echo "-f --help" ;;
    send) echo "-l -a --help" ;;
    paste) echo "--raw --help" ;;
    capture) echo "--svg -S -E -e -J --help" ;;
    log) echo "-e -J --help" ;;
    upgrade) echo "--all --help" ;;
    ssh) echo "--ssh --far --predict --help" ;;
    *) echo --help ;;
    esac
}

_roam_commands="bind bind-key choose-buffer choose-tree choose-window command-prompt copy-mode detach detach-client display display-message display-panes displayp kill-pane kill-window killp killw last last-pane last-window lastp list-keys lsk new-window neww next next-layout next-window nextl paste-buffer pasteb prev previous-window refresh refresh-client rename-window renamew resize-pane resizep run run-shell select-layout select-pane select-window selectl selectp selectw send send-keys send-prefix set set-option set-window-option setw source source-file split-window splitw suspend-client suspendc synchronize-panes toggle-mouse toggle-status unbind unbind-key"
_roam_tmux_commands="attach-session capture-pane delete-buffer detach-client display-message has-session if-shell kill-pane kill-server kill-session kill-window last-pane last-window list-buffers list-clients list-commands list-panes list-sessions list-windows load-buffer move-window new-session new-window next-window paste-buffer pipe-pane previous-window rename-session rename-window resize-pane resize-window respawn-pane run-shell save-buffer select-layout select-pane select-window send-keys send-prefix set-buffer set-environment set-hook set-option set-window-option show-buffer show-environment show-hooks show-options show-window-options source-file split-window start-server swap-window wait-for"
# Up to here.

# The names of keys. C- and M- may precede others.
_roam_keys="Enter Escape Tab BTab Space BSpace Up Down Left Right Home End PPage NPage IC DC C-c C-d C-l C-u C-z $(printf 'F%s ' {1..12})"

# Print the acts that a client can type, one in each line. The user adds a number, a size or a character.
_roam_acts() {
    printf '%s\n' 'char ' 'split right' 'split down' close next 'grow ' 'size ' 'view ' 'key return' 'key backspace'
    printf 'key %s\n' up down right left pf{1..4} find insert remove select prev next f{6..20}
    printf 'key %s\n' pad{0..9} padminus padcomma padperiod padenter
    printf 'focus %s\n' {1..9}
}

# Complete an act, which is one word of the shell: an act with a space is quoted.
_roam_act() {
    local word=${1#[\"\']} act
    word=${word//\\/}
    COMPREPLY=()
    while IFS= read -r act; do
        [[ $act != "$word"* ]] || COMPREPLY+=("$act")
    done < <(_roam_acts)
    compopt -o filenames 2> /dev/null
}

# Complete a directory, or one of these words.
_roam_folder() {
    mapfile -t COMPREPLY < <(compgen -d -- "$1"; compgen -W "$2" -- "$1")
    compopt -o filenames 2> /dev/null
}

_roam_mux() {
    local word=${COMP_WORDS[COMP_CWORD]} words= mux=("${COMP_WORDS[0]}") first=1
    [ "${COMP_WORDS[1]}" != mux ] || { mux+=(mux) first=2; }
    if [ "${COMP_WORDS[first]}" = send ] && [ "$COMP_CWORD" -gt "$((first + 1))" ]; then
        # A session follows -l or -a. The words after it are keys, or acts after -a.
        case ${COMP_WORDS[first + 1]}$COMP_CWORD in
        -[la]$((first + 2))) words=$(_roam_mux_names "${mux[@]}") ;;
        -l*) ;;
        -a*) _roam_act "$word" && return ;;
        *) words=$_roam_keys ;;
        esac
        mapfile -t COMPREPLY < <(compgen -W "$words" -- "$word")
        return
    fi
    # A session and a command follow cmd.
    if [ "${COMP_WORDS[first]}" = cmd ] && [ "$COMP_CWORD" -eq "$((first + 2))" ]; then
        mapfile -t COMPREPLY < <(compgen -W "$_roam_commands" -- "$word")
        return
    fi
    # An action and a session follow buffer.
    if [ "${COMP_WORDS[first]}" = buffer ] && [ "$COMP_CWORD" -gt "$((first + 1))" ]; then
        [ "$COMP_CWORD" -gt "$((first + 2))" ] || words=$(_roam_mux_names "${mux[@]}")
        mapfile -t COMPREPLY < <(compgen -W "$words" -- "$word")
        return
    fi
    local before=${COMP_WORDS[COMP_CWORD - 1]}
    case $before in
    ssh) mapfile -t COMPREPLY < <(compgen -A hostname -W "$(_roam_mux_options ssh)" -- "$word") && return ;;
    mux | roam-mux | */mux | */roam-mux) words="$_roam_mux_words $(_roam_mux_names "${mux[@]}")" ;;
    :) words=$(_roam_mux_windows "${COMP_WORDS[COMP_CWORD - 2]}" "${mux[@]}") ;;
    -n) words= ;;
    attach | new-window | watch | env | cmd | list-windows | rename-window | clients | send | paste | kill | capture | log)
        words="$(_roam_mux_options "$before") $(_roam_mux_names "${mux[@]}")"
        ;;
    buffer) words="list show set paste --help" ;;
    -S | -E) words="-" ;;
    --svg | --raw | -f | -e | -J | -d) words=$(_roam_mux_names "${mux[@]}") ;;
    new) words=$(_roam_mux_options new) ;;
    --predict) words="adaptive always never" ;;
    help) words=$_roam_mux_words ;;
    esac
    mapfile -t COMPREPLY < <(compgen -W "$words" -- "$word")
}

_roam_attach() {
    local word=${COMP_WORDS[COMP_CWORD]}
    case ${COMP_WORDS[COMP_CWORD - 1]} in
    --dir) _roam_folder "$word" "" ;;
    --predict) mapfile -t COMPREPLY < <(compgen -W "adaptive always never" -- "$word") ;;
    --server) COMPREPLY=() ;;
    *) _roam_folder "$word" "--watch --predict --dir --server --help" ;;
    esac
}

_roam_pane_shells() {
    local word=${COMP_WORDS[COMP_CWORD]} place
    # A command follows the directory.
    for ((place = 1; place < COMP_CWORD; place++)); do
        case ${COMP_WORDS[place]} in
        --server) place=$((place + 1)) ;;
        -*) ;;
        *) mapfile -t COMPREPLY < <(compgen -c -- "$word") && return ;;
        esac
    done
    case ${COMP_WORDS[COMP_CWORD - 1]} in
    --server) COMPREPLY=() ;;
    *) _roam_folder "$word" "--close --server --again --windows --help" ;;
    esac
}

_roam_relay() {
    local word=${COMP_WORDS[COMP_CWORD]}
    case ${COMP_WORDS[COMP_CWORD - 1]} in
    --dir) _roam_folder "$word" "" ;;
    --log) mapfile -t COMPREPLY < <(compgen -f -- "$word") ;;
    *) mapfile -t COMPREPLY < <(compgen -W "--far --with --alone --log --host --dir --session --server --help" -- "$word") ;;
    esac
}

_roam() {
    local word=${COMP_WORDS[COMP_CWORD]} words
    if [ "$COMP_CWORD" -gt 1 ] && [ "${COMP_WORDS[1]}" = mux ]; then
        _roam_mux
        return
    fi
    case ${COMP_WORDS[1]} in
    tmux) words=$_roam_tmux_commands ;;
    serve) words="--dir --port --session --turns --normalize --help" ;;
    attach) words="--dir --port --session --client --keys --acts --terminals --wire --watch --turns --help" ;;
    show) words="--rows --cols --help" ;;
    rows) words="--normalize --help" ;;
    world) words="--help" ;;
    *) words="mux tmux serve attach show rows world --help --version" ;;
    esac
    [ "$COMP_CWORD" -gt 1 ] || words="mux tmux serve attach show rows world --help --version"
    case ${COMP_WORDS[COMP_CWORD - 1]} in
    --dir) _roam_folder "$word" "" ;;
    --keys | --acts | --terminals) mapfile -t COMPREPLY < <(compgen -f -- "$word") ;;
    --wire) mapfile -t COMPREPLY < <(compgen -W "1 2" -- "$word") ;;
    *) mapfile -t COMPREPLY < <(compgen -W "$words" -- "$word") ;;
    esac
}

complete -F _roam roam
complete -F _roam_mux mux roam-mux
complete -F _roam_attach attach roam-attach
complete -F _roam_pane_shells pane_shells roam-pane-shells
complete -F _roam_relay relay roam-relay
