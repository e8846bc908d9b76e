#compdef roam roam-mux
# Completion of roam and roam-mux for zsh: install it as _roam into a directory of fpath. tools/completions writes it.

_roam_sessions() {
    local -a names expl
    names=(${(f)"$("${_roam_call[@]}" ls 2> /dev/null)"})
    names=(${names%% *})
    _wanted sessions expl session compadd -a names
}

_roam_typed() {
    local -a found expl
    if (( ${words[(I)-a]} )); then
        found=('split right' 'split down' 'close' 'next' 'key return' 'key backspace' 'key up' 'key down' 'key left' 'key right' 'focus 1' 'focus 2' 'focus 3' 'focus 4' 'focus 5' 'focus 6' 'focus 7' 'focus 8' 'focus 9')
    else
        found=(Enter Escape Tab BTab Space BSpace Up Down Left Right Home End PPage NPage IC DC C-c C-d C-l C-u C-z F1 F2 F3 F4 F5 F6 F7 F8 F9 F10 F11 F12)
    fi
    _wanted keys expl 'key or text' compadd -a found
}

_roam_mux_words() {
    local -a found
    found=(
        'attach:attach to a running session, main if none is named'
        'new:start a session that is not running, main if none is named, and attach to it'
        'ls:list the sessions'
        'list:list the sessions'
        'list-windows:list the windows of a session'
        'new-window:open a window in a running session, and print its name'
        'rename-window:name a window, or remove its name if no title is given'
        'clients:list the terminals at a session'
        'watch:show a session without typing there'
        'kill:end a session, a window or a pane, and the programs in it'
        'send:type keys and text into a session or a pane'
        'paste:paste standard input into a session or a pane, in one piece'
        'capture:print the rows that a session or a pane shows, or rows of its scrollback'
        'log:print each row of a pane as it scrolls off, until the pane ends'
        'buffer:list, print, set or paste the paste buffers of a session'
        'env:print shell commands that set the environment of the last attach'
        'cmd:run a tmux command in a session, such as split-window -h'
        'upgrade:have a session go on with this build of roam, or list those that run another one'
        'settings:print the path of the settings file, and each line of it that has no effect'
        'ssh:attach to a session on another machine over ssh'
        'help:explain all commands, or one of them'
    )
    _describe -t commands command found
    _roam_sessions
}

_roam_mux() {
    local curcontext=$curcontext state line
    typeset -A opt_args
    _arguments -C '--help[explains the words]' '--version[prints which build this is]' '1: :_roam_mux_words' '*:: :->behind'
    [[ $state = behind ]] || return
    case $words[1] in
    attach) _arguments '-d[detach all other terminals first]' '--predict=[when to show predictions of keys\: adaptive, always, never]:WHEN:(adaptive always never)' '--help[explains this word]' '1:NAME:_roam_sessions' ;;
    new) _arguments '-d[start no front end; options precede NAME]' '--predict=[when to show predictions of keys\: adaptive, always, never]:WHEN:(adaptive always never)' '--help[explains this word]' '1:NAME:' '2:COMMAND:_command_names -e' ;;
    ls) _arguments '--help[explains this word]' ;;
    list) _arguments '--help[explains this word]' ;;
    list-windows) _arguments '--help[explains this word]' '1:NAME:_roam_sessions' ;;
    new-window) _arguments '-n[the name of the window]:TITLE:' '--help[explains this word]' '1:NAME:_roam_sessions' ;;
    rename-window) _arguments '--help[explains this word]' '1:NAME\:K:_roam_sessions' '2:TITLE:' ;;
    clients) _arguments '--help[explains this word]' '1:NAME:_roam_sessions' ;;
    watch) _arguments '--help[explains this word]' '1:NAME:_roam_sessions' ;;
    kill) _arguments '-f[do not ask]' '--help[explains this word]' '1:NAME[\:K][.P]:_roam_sessions' ;;
    send) _arguments '-l[type the characters of all words]' '-a[the words are acts, such as '\''char 61'\'' or '\''split right'\'', or keys]' '--help[explains this word]' '1:NAME[\:K][.P]:_roam_sessions' '*: :_roam_typed' ;;
    paste) _arguments '--raw[keep escape characters]' '--help[explains this word]' '1:NAME[\:K][.P]:_roam_sessions' ;;
    capture) _arguments '--svg[print a picture in SVG]' '-S[the first row\: 0 is the first of the screen, -1 the last above it, - the oldest]:ROW:' '-E[the last row; - is the last of the screen]:ROW:' '-e[include styles, as SGR sequences]' '-J[join soft-wrapped rows into one line]' '--help[explains this word]' '1:NAME[\:K][.P]:_roam_sessions' ;;
    log) _arguments '-e[include styles, as SGR sequences]' '-J[join soft-wrapped rows into one line]' '--help[explains this word]' '1:NAME[\:K][.P]:_roam_sessions' ;;
    buffer) _arguments '--help[explains this word]' '1:list|show|set|paste:(list show set paste)' '2:NAME[\:K][.P]:_roam_sessions' '3:N|TEXT:' ;;
    env) _arguments '--help[explains this word]' '1:NAME:_roam_sessions' ;;
    cmd) _arguments '--help[explains this word]' '1:NAME[\:K][.P]:_roam_sessions' '2:COMMAND:(bind bind-key choose-buffer choose-tree choose-window command-prompt copy-mode detach detach-client display display-message display-panes displayp kill-pane kill-window killp killw last last-pane last-window lastp list-keys lsk new-window neww next next-layout next-window nextl paste-buffer pasteb prev previous-window refresh refresh-client rename-window renamew resize-pane resizep run run-shell select-layout select-pane select-window selectl selectp selectw send send-keys send-prefix set set-option set-window-option setw source source-file split-window splitw suspend-client suspendc synchronize-panes toggle-mouse toggle-status unbind unbind-key)' ;;
    upgrade) _arguments '--all[all sessions of this machine]' '--help[explains this word]' '1:NAME:_roam_sessions' ;;
    settings) _arguments '--help[explains this word]' ;;
    ssh) _arguments '--ssh=[the command that runs ssh here]:COMMAND:' '--far=[the command that runs roam-mux there]:COMMAND:' '--predict=[when to show predictions of keys\: adaptive, always, never]:WHEN:(adaptive always never)' '--help[explains this word]' '1:HOST:_hosts' '2:NAME:' ;;
    help) _arguments '--help[explains this word]' '1:WORD:(attach new ls list list-windows new-window rename-window clients watch kill send paste capture log buffer env cmd upgrade settings ssh help)' ;;
    esac
}

_roam() {
    local curcontext=$curcontext state line
    local -a found _roam_call
    typeset -A opt_args
    if [[ $service = roam-mux ]]; then
        _roam_call=($words[1])
        _roam_mux
        return
    fi
    _roam_call=($words[1] mux)
    _arguments -C '--help[explains the commands]' '--version[prints which build this is]' '1: :->command' '*:: :->behind'
    case $state in
    command)
        found=(
            'mux:run terminal sessions'
            'tmux:run a command of tmux'
            'serve:serve a session'
            'attach:run a client of a session'
            'show:print the screen that bytes produce'
            'rows:print the rows that scroll off'
            'world:replay a script of network events'
        )
        _describe -t commands command found
        ;;
    behind)
        case $words[1] in
        mux) _roam_mux ;;
        serve) _arguments '--dir=:dir:_files -/' '--port=:port:' '--session=:session:' '--turns=:turns:' '--normalize' ;;
        attach) _arguments '--dir=:dir:_files -/' '--port=:port:' '--session=:session:' '--client=:client:' '--keys=:keys:_files' '--acts=:acts:_files' '--terminals=:terminals:_files' '--watch' '--wire=:wire:' '--turns=:turns:' ;;
        show) _arguments '--rows=:rows:' '--cols=:cols:' ;;
        rows) _arguments '--normalize' ;;
        world) _arguments  ;;
        tmux) _arguments '1:command:(attach-session capture-pane delete-buffer detach-client display-message has-session if-shell kill-pane kill-server kill-session kill-window last-pane last-window list-buffers list-clients list-commands list-panes list-sessions list-windows load-buffer move-window new-session new-window next-window paste-buffer pipe-pane previous-window rename-session rename-window resize-pane resize-window respawn-pane run-shell save-buffer select-layout select-pane select-window send-keys send-prefix set-buffer set-environment set-hook set-option set-window-option show-buffer show-environment show-hooks show-options show-window-options source-file split-window start-server swap-window wait-for)' ;;
        esac
        ;;
    esac
}

_roam "$@"
