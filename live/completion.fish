# Completion of roam and roam-mux for fish: install it into a directory of completions. tools/completions writes it.

# Print the typed words after mux, without the one that is being completed.
function __roam_words
    set -l words (commandline -opc)
    if string match -q '*roam-mux' -- $words[1]
        string join \n -- $words[2..-1]
    else if test "$words[2]" = mux
        string join \n -- $words[3..-1]
    end
end

# Succeed if a command of mux comes next.
function __roam_begins
    set -l words (commandline -opc)
    string match -q '*roam-mux' -- $words[1]; and test (count $words) = 1; and return
    test "$words[2]" = mux; and test (count $words) = 2
end

# Succeed if one of these commands of mux was typed.
function __roam_is
    set -l words (__roam_words)
    contains -- "$words[1]" $argv
end

# Succeed if so many arguments follow the command of mux, without options.
function __roam_has
    set -l words (__roam_words)
    set -l others (string match -v -- '-*' $words[2..-1])
    test (count $others) = $argv[1]
end

function __roam_sessions
    set -l words (commandline -opc)
    set -l call $words[1]
    string match -q '*roam-mux' -- $call; or set -a call mux
    $call ls 2> /dev/null | string replace -r ' .*' ''
end

function __roam_program
    set -l words (commandline -opc)
    not string match -q '*roam-mux' -- $words[1]; and test (count $words) -ge 2; and test "$words[2]" = $argv[1]
end

function __roam_first
    test (count (commandline -opc)) = 1
end

complete -c roam -n '__roam_first' -f -a mux -d 'run terminal sessions'
complete -c roam -n '__roam_first' -f -a tmux -d 'run a command of tmux'
complete -c roam -n '__roam_first' -f -a serve -d 'serve a session'
complete -c roam -n '__roam_first' -f -a attach -d 'run a client of a session'
complete -c roam -n '__roam_first' -f -a show -d 'print the screen that bytes produce'
complete -c roam -n '__roam_first' -f -a rows -d 'print the rows that scroll off'
complete -c roam -n '__roam_first' -f -a world -d 'replay a script of network events'
complete -c roam -n '__roam_program tmux' -f -a 'attach-session capture-pane delete-buffer detach-client display-message has-session if-shell kill-pane kill-server kill-session kill-window last-pane last-window list-buffers list-clients list-commands list-panes list-sessions list-windows load-buffer move-window new-session new-window next-window paste-buffer pipe-pane previous-window rename-session rename-window resize-pane resize-window respawn-pane run-shell save-buffer select-layout select-pane select-window send-keys send-prefix set-buffer set-environment set-hook set-option set-window-option show-buffer show-environment show-hooks show-options show-window-options source-file split-window start-server swap-window wait-for'
complete -c roam -n '__roam_program serve' -F -l dir -r
complete -c roam -n '__roam_program serve' -f -l port -x
complete -c roam -n '__roam_program serve' -f -l session -x
complete -c roam -n '__roam_program serve' -f -l turns -x
complete -c roam -n '__roam_program serve' -f -l normalize
complete -c roam -n '__roam_program attach' -F -l dir -r
complete -c roam -n '__roam_program attach' -f -l port -x
complete -c roam -n '__roam_program attach' -f -l session -x
complete -c roam -n '__roam_program attach' -f -l client -x
complete -c roam -n '__roam_program attach' -F -l keys -r
complete -c roam -n '__roam_program attach' -F -l acts -r
complete -c roam -n '__roam_program attach' -F -l terminals -r
complete -c roam -n '__roam_program attach' -f -l watch
complete -c roam -n '__roam_program attach' -f -l wire -x
complete -c roam -n '__roam_program attach' -f -l turns -x
complete -c roam -n '__roam_program show' -f -l rows -x
complete -c roam -n '__roam_program show' -f -l cols -x
complete -c roam -n '__roam_program rows' -f -l normalize
complete -c roam -n '__roam_begins' -f -a attach -d 'attach to a running session, main if none is named'
complete -c roam -n '__roam_begins' -f -a new -d 'start a session that is not running, main if none is named, and attach to it'
complete -c roam -n '__roam_begins' -f -a ls -d 'list the sessions'
complete -c roam -n '__roam_begins' -f -a list -d 'list the sessions'
complete -c roam -n '__roam_begins' -f -a list-windows -d 'list the windows of a session'
complete -c roam -n '__roam_begins' -f -a new-window -d 'open a window in a running session, and print its name'
complete -c roam -n '__roam_begins' -f -a rename-window -d 'name a window, or remove its name if no title is given'
complete -c roam -n '__roam_begins' -f -a clients -d 'list the terminals at a session'
complete -c roam -n '__roam_begins' -f -a watch -d 'show a session without typing there'
complete -c roam -n '__roam_begins' -f -a kill -d 'end a session, a window or a pane, and the programs in it'
complete -c roam -n '__roam_begins' -f -a send -d 'type keys and text into a session or a pane'
complete -c roam -n '__roam_begins' -f -a paste -d 'paste standard input into a session or a pane, in one piece'
complete -c roam -n '__roam_begins' -f -a capture -d 'print the rows that a session or a pane shows, or rows of its scrollback'
complete -c roam -n '__roam_begins' -f -a log -d 'print each row of a pane as it scrolls off, until the pane ends'
complete -c roam -n '__roam_begins' -f -a buffer -d 'list, print, set or paste the paste buffers of a session'
complete -c roam -n '__roam_begins' -f -a env -d 'print shell commands that set the environment of the last attach'
complete -c roam -n '__roam_begins' -f -a cmd -d 'run a tmux command in a session, such as split-window -h'
complete -c roam -n '__roam_begins' -f -a upgrade -d 'have a session go on with this build of roam, or list those that run another one'
complete -c roam -n '__roam_begins' -f -a settings -d 'print the path of the settings file, and each line of it that has no effect'
complete -c roam -n '__roam_begins' -f -a ssh -d 'attach to a session on another machine over ssh'
complete -c roam -n '__roam_begins' -f -a help -d 'explain all commands, or one of them'
complete -c roam -n '__roam_begins' -f -a '(__roam_sessions)' -d 'a session'
complete -c roam -n '__roam_is attach' -f -s d -d 'detach all other terminals first'
complete -c roam -n '__roam_is attach' -f -l predict -x -a 'adaptive always never' -d 'when to show predictions of keys: adaptive, always, never'
complete -c roam -n '__roam_is attach; and __roam_has 0' -f -a '(__roam_sessions)'
complete -c roam -n '__roam_is new' -f -s d -d 'start no front end; options precede NAME'
complete -c roam -n '__roam_is new' -f -l predict -x -a 'adaptive always never' -d 'when to show predictions of keys: adaptive, always, never'
complete -c roam -n '__roam_is list-windows; and __roam_has 0' -f -a '(__roam_sessions)'
complete -c roam -n '__roam_is new-window' -f -s n -x -d 'the name of the window'
complete -c roam -n '__roam_is new-window; and __roam_has 0' -f -a '(__roam_sessions)'
complete -c roam -n '__roam_is rename-window; and __roam_has 0' -f -a '(__roam_sessions)'
complete -c roam -n '__roam_is clients; and __roam_has 0' -f -a '(__roam_sessions)'
complete -c roam -n '__roam_is watch; and __roam_has 0' -f -a '(__roam_sessions)'
complete -c roam -n '__roam_is kill' -f -s f -d 'do not ask'
complete -c roam -n '__roam_is kill; and __roam_has 0' -f -a '(__roam_sessions)'
complete -c roam -n '__roam_is send' -f -s l -d 'type the characters of all words'
complete -c roam -n '__roam_is send' -f -s a -d 'the words are acts, such as '\''char 61'\'' or '\''split right'\'', or keys'
complete -c roam -n '__roam_is send; and __roam_has 0' -f -a '(__roam_sessions)'
complete -c roam -n '__roam_is send; and not __roam_has 0; and not contains -- -a (__roam_words)' -f -a 'Enter Escape Tab BTab Space BSpace Up Down Left Right Home End PPage NPage IC DC C-c C-d C-l C-u C-z F1 F2 F3 F4 F5 F6 F7 F8 F9 F10 F11 F12'
complete -c roam -n '__roam_is send; and not __roam_has 0; and contains -- -a (__roam_words)' -f -a '(printf "split right\nsplit down\nclose\nnext\nkey return\nkey backspace\nkey up\nkey down\nkey left\nkey right\nfocus 1\nfocus 2\nfocus 3\nfocus 4\nfocus 5\nfocus 6\nfocus 7\nfocus 8\nfocus 9\n")'
complete -c roam -n '__roam_is paste' -f -l raw -d 'keep escape characters'
complete -c roam -n '__roam_is paste; and __roam_has 0' -f -a '(__roam_sessions)'
complete -c roam -n '__roam_is capture' -f -l svg -d 'print a picture in SVG'
complete -c roam -n '__roam_is capture' -f -s S -x -d 'the first row: 0 is the first of the screen, -1 the last above it, - the oldest'
complete -c roam -n '__roam_is capture' -f -s E -x -d 'the last row; - is the last of the screen'
complete -c roam -n '__roam_is capture' -f -s e -d 'include styles, as SGR sequences'
complete -c roam -n '__roam_is capture' -f -s J -d 'join soft-wrapped rows into one line'
complete -c roam -n '__roam_is capture; and __roam_has 0' -f -a '(__roam_sessions)'
complete -c roam -n '__roam_is log' -f -s e -d 'include styles, as SGR sequences'
complete -c roam -n '__roam_is log' -f -s J -d 'join soft-wrapped rows into one line'
complete -c roam -n '__roam_is log; and __roam_has 0' -f -a '(__roam_sessions)'
complete -c roam -n '__roam_is buffer; and __roam_has 0' -f -a 'list show set paste'
complete -c roam -n '__roam_is buffer; and __roam_has 1' -f -a '(__roam_sessions)'
complete -c roam -n '__roam_is env; and __roam_has 0' -f -a '(__roam_sessions)'
complete -c roam -n '__roam_is cmd; and __roam_has 0' -f -a '(__roam_sessions)'
complete -c roam -n '__roam_is cmd; and __roam_has 1' -f -a 'bind bind-key choose-buffer choose-tree choose-window command-prompt copy-mode detach detach-client display display-message display-panes displayp kill-pane kill-window killp killw last last-pane last-window lastp list-keys lsk new-window neww next next-layout next-window nextl paste-buffer pasteb prev previous-window refresh refresh-client rename-window renamew resize-pane resizep run run-shell select-layout select-pane select-window selectl selectp selectw send send-keys send-prefix set set-option set-window-option setw source source-file split-window splitw suspend-client suspendc synchronize-panes toggle-mouse toggle-status unbind unbind-key'
complete -c roam -n '__roam_is upgrade' -f -l all -d 'all sessions of this machine'
complete -c roam -n '__roam_is upgrade; and __roam_has 0' -f -a '(__roam_sessions)'
complete -c roam -n '__roam_is ssh' -f -l ssh -x -d 'the command that runs ssh here'
complete -c roam -n '__roam_is ssh' -f -l far -x -d 'the command that runs roam-mux there'
complete -c roam -n '__roam_is ssh' -f -l predict -x -a 'adaptive always never' -d 'when to show predictions of keys: adaptive, always, never'
complete -c roam -n '__roam_is ssh; and __roam_has 0' -f -a '(__fish_print_hostnames)'
complete -c roam -n '__roam_is help; and __roam_has 0' -f -a 'attach new ls list list-windows new-window rename-window clients watch kill send paste capture log buffer env cmd upgrade settings ssh help'
complete -c roam-mux -n '__roam_begins' -f -a attach -d 'attach to a running session, main if none is named'
complete -c roam-mux -n '__roam_begins' -f -a new -d 'start a session that is not running, main if none is named, and attach to it'
complete -c roam-mux -n '__roam_begins' -f -a ls -d 'list the sessions'
complete -c roam-mux -n '__roam_begins' -f -a list -d 'list the sessions'
complete -c roam-mux -n '__roam_begins' -f -a list-windows -d 'list the windows of a session'
complete -c roam-mux -n '__roam_begins' -f -a new-window -d 'open a window in a running session, and print its name'
complete -c roam-mux -n '__roam_begins' -f -a rename-window -d 'name a window, or remove its name if no title is given'
complete -c roam-mux -n '__roam_begins' -f -a clients -d 'list the terminals at a session'
complete -c roam-mux -n '__roam_begins' -f -a watch -d 'show a session without typing there'
complete -c roam-mux -n '__roam_begins' -f -a kill -d 'end a session, a window or a pane, and the programs in it'
complete -c roam-mux -n '__roam_begins' -f -a send -d 'type keys and text into a session or a pane'
complete -c roam-mux -n '__roam_begins' -f -a paste -d 'paste standard input into a session or a pane, in one piece'
complete -c roam-mux -n '__roam_begins' -f -a capture -d 'print the rows that a session or a pane shows, or rows of its scrollback'
complete -c roam-mux -n '__roam_begins' -f -a log -d 'print each row of a pane as it scrolls off, until the pane ends'
complete -c roam-mux -n '__roam_begins' -f -a buffer -d 'list, print, set or paste the paste buffers of a session'
complete -c roam-mux -n '__roam_begins' -f -a env -d 'print shell commands that set the environment of the last attach'
complete -c roam-mux -n '__roam_begins' -f -a cmd -d 'run a tmux command in a session, such as split-window -h'
complete -c roam-mux -n '__roam_begins' -f -a upgrade -d 'have a session go on with this build of roam, or list those that run another one'
complete -c roam-mux -n '__roam_begins' -f -a settings -d 'print the path of the settings file, and each line of it that has no effect'
complete -c roam-mux -n '__roam_begins' -f -a ssh -d 'attach to a session on another machine over ssh'
complete -c roam-mux -n '__roam_begins' -f -a help -d 'explain all commands, or one of them'
complete -c roam-mux -n '__roam_begins' -f -a '(__roam_sessions)' -d 'a session'
complete -c roam-mux -n '__roam_is attach' -f -s d -d 'detach all other terminals first'
complete -c roam-mux -n '__roam_is attach' -f -l predict -x -a 'adaptive always never' -d 'when to show predictions of keys: adaptive, always, never'
complete -c roam-mux -n '__roam_is attach; and __roam_has 0' -f -a '(__roam_sessions)'
complete -c roam-mux -n '__roam_is new' -f -s d -d 'start no front end; options precede NAME'
complete -c roam-mux -n '__roam_is new' -f -l predict -x -a 'adaptive always never' -d 'when to show predictions of keys: adaptive, always, never'
complete -c roam-mux -n '__roam_is list-windows; and __roam_has 0' -f -a '(__roam_sessions)'
complete -c roam-mux -n '__roam_is new-window' -f -s n -x -d 'the name of the window'
complete -c roam-mux -n '__roam_is new-window; and __roam_has 0' -f -a '(__roam_sessions)'
complete -c roam-mux -n '__roam_is rename-window; and __roam_has 0' -f -a '(__roam_sessions)'
complete -c roam-mux -n '__roam_is clients; and __roam_has 0' -f -a '(__roam_sessions)'
complete -c roam-mux -n '__roam_is watch; and __roam_has 0' -f -a '(__roam_sessions)'
complete -c roam-mux -n '__roam_is kill' -f -s f -d 'do not ask'
complete -c roam-mux -n '__roam_is kill; and __roam_has 0' -f -a '(__roam_sessions)'
complete -c roam-mux -n '__roam_is send' -f -s l -d 'type the characters of all words'
complete -c roam-mux -n '__roam_is send' -f -s a -d 'the words are acts, such as '\''char 61'\'' or '\''split right'\'', or keys'
complete -c roam-mux -n '__roam_is send; and __roam_has 0' -f -a '(__roam_sessions)'
complete -c roam-mux -n '__roam_is send; and not __roam_has 0; and not contains -- -a (__roam_words)' -f -a 'Enter Escape Tab BTab Space BSpace Up Down Left Right Home End PPage NPage IC DC C-c C-d C-l C-u C-z F1 F2 F3 F4 F5 F6 F7 F8 F9 F10 F11 F12'
complete -c roam-mux -n '__roam_is send; and not __roam_has 0; and contains -- -a (__roam_words)' -f -a '(printf "split right\nsplit down\nclose\nnext\nkey return\nkey backspace\nkey up\nkey down\nkey left\nkey right\nfocus 1\nfocus 2\nfocus 3\nfocus 4\nfocus 5\nfocus 6\nfocus 7\nfocus 8\nfocus 9\n")'
complete -c roam-mux -n '__roam_is paste' -f -l raw -d 'keep escape characters'
complete -c roam-mux -n '__roam_is paste; and __roam_has 0' -f -a '(__roam_sessions)'
complete -c roam-mux -n '__roam_is capture' -f -l svg -d 'print a picture in SVG'
complete -c roam-mux -n '__roam_is capture' -f -s S -x -d 'the first row: 0 is the first of the screen, -1 the last above it, - the oldest'
complete -c roam-mux -n '__roam_is capture' -f -s E -x -d 'the last row; - is the last of the screen'
complete -c roam-mux -n '__roam_is capture' -f -s e -d 'include styles, as SGR sequences'
complete -c roam-mux -n '__roam_is capture' -f -s J -d 'join soft-wrapped rows into one line'
complete -c roam-mux -n '__roam_is capture; and __roam_has 0' -f -a '(__roam_sessions)'
complete -c roam-mux -n '__roam_is log' -f -s e -d 'include styles, as SGR sequences'
complete -c roam-mux -n '__roam_is log' -f -s J -d 'join soft-wrapped rows into one line'
complete -c roam-mux -n '__roam_is log; and __roam_has 0' -f -a '(__roam_sessions)'
complete -c roam-mux -n '__roam_is buffer; and __roam_has 0' -f -a 'list show set paste'
complete -c roam-mux -n '__roam_is buffer; and __roam_has 1' -f -a '(__roam_sessions)'
complete -c roam-mux -n '__roam_is env; and __roam_has 0' -f -a '(__roam_sessions)'
complete -c roam-mux -n '__roam_is cmd; and __roam_has 0' -f -a '(__roam_sessions)'
complete -c roam-mux -n '__roam_is cmd; and __roam_has 1' -f -a 'bind bind-key choose-buffer choose-tree choose-window command-prompt copy-mode detach detach-client display display-message display-panes displayp kill-pane kill-window killp killw last last-pane last-window lastp list-keys lsk new-window neww next next-layout next-window nextl paste-buffer pasteb prev previous-window refresh refresh-client rename-window renamew resize-pane resizep run run-shell select-layout select-pane select-window selectl selectp selectw send send-keys send-prefix set set-option set-window-option setw source source-file split-window splitw suspend-client suspendc synchronize-panes toggle-mouse toggle-status unbind unbind-key'
complete -c roam-mux -n '__roam_is upgrade' -f -l all -d 'all sessions of this machine'
complete -c roam-mux -n '__roam_is upgrade; and __roam_has 0' -f -a '(__roam_sessions)'
complete -c roam-mux -n '__roam_is ssh' -f -l ssh -x -d 'the command that runs ssh here'
complete -c roam-mux -n '__roam_is ssh' -f -l far -x -d 'the command that runs roam-mux there'
complete -c roam-mux -n '__roam_is ssh' -f -l predict -x -a 'adaptive always never' -d 'when to show predictions of keys: adaptive, always, never'
complete -c roam-mux -n '__roam_is ssh; and __roam_has 0' -f -a '(__fish_print_hostnames)'
complete -c roam-mux -n '__roam_is help; and __roam_has 0' -f -a 'attach new ls list list-windows new-window rename-window clients watch kill send paste capture log buffer env cmd upgrade settings ssh help'
