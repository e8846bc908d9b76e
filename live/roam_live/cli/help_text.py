"""The output of `mux help`."""

HELP = """\
mux [NAME] | COMMAND ..: terminal sessions that keep running when you leave.

  [NAME]             Attach to session NAME, main if none is named. If it is not running, start it.
                     C-b ? lists the keys. C-b d detaches, and the session keeps running.
  attach [-d] [NAME] Attach to a running session, main if none is named. -d detaches all other terminals first.
  new [-d] [NAME [COMMAND ..]]
                     Start a session that is not running, main if none is named, and attach to it. COMMAND runs in each pane instead of the
                     shell. -d starts no front end.
  ls                 List the sessions: name, rows and columns, panes, terminals, windows. list is the same. ssh:HOST:NAME is a session on
                     another machine.
  list-windows NAME  List the windows of a session: number, name, rows and columns, panes, programs.
  new-window [-n TITLE] NAME
                     Open a window in a running session, and print its name, such as NAME:2.
  rename-window NAME:K [TITLE]
                     Name a window, or remove its name if no title is given.
  clients NAME       List the terminals at a session: number, name, size, window, start time.
  watch NAME         Show a session without typing there.
  kill [-f] NAME     End a session, a window or a pane, and the programs in it. It asks if one is not a shell; -f does not. For
                     ssh:HOST:NAME, it ends the relay here.
  send NAME WORD ..  Type keys and text into a session or a pane, as in `send work 'make test' Enter`. A key has its tmux name, such as C-c.
                     The command ends when the session has taken the input.
  send -l NAME WORD ..
                     Type the characters of all words, in one piece.
  send -a NAME ACT ..
                     Type acts, such as 'char 61', 'key return' or 'split right', and keys by their tmux names.
  paste [--raw] NAME Paste standard input into a session or a pane, in one piece. It is bracketed if the program asked for it. --raw keeps
                     escape characters.
  capture [--svg] NAME
                     Print the rows that a session or a pane shows, or rows of its scrollback. --svg prints a picture.
  capture [-S ROW] [-E ROW] [-e] [-J] NAME
                     Print rows of the active pane. Row 0 is the first of the screen, -1 the last above it, - the first or last of all. -e
                     includes styles, and -J joins soft-wrapped rows.
  log [-e] [-J] NAME Print each row of a pane as it scrolls off, until the pane ends.
  buffer list|show|set|paste NAME [N|TEXT]
                     List, print, set or paste the paste buffers of a session. N is a number of the list, the newest if none is named.
                     Without TEXT, set reads standard input.
  env NAME           Print shell commands that set the environment of the last attach, for `eval "$(mux env NAME)"`.
  cmd NAME COMMAND ..
                     Run a tmux command in a session, such as split-window -h or send-keys ls Enter. roam.conf(5) lists them.
  upgrade [--all] [NAME]
                     Have a session go on with this build of roam, or list those that run another one. Its programs keep running.
  settings           Print the path of the settings file, and each line of it that has no effect. roam.conf(5) describes the file.
  ssh [--ssh COMMAND] [--far COMMAND] [OPTION ..] HOST [NAME]
                     Attach to a session on another machine over ssh. The front end stays while the network is broken. A relay carries the
                     session over encrypted UDP if it can. COMMAND runs ssh here, or roam-mux there. OPTIONs such as -p 2222 are for ssh.
  far NAME           Carry a session over standard input and output for mux ssh on another machine. mux ssh runs this on HOST.
  help [WORD]        Explain all commands, or one of them; so does --help after a command. --version prints the build of roam.

Targets: a session has windows 1 to 99, each with panes of its own. NAME:K is window K, and NAME the window that was last in use. NAME:K.P
and NAME.P are pane P there. Inside a pane, the name of its own session and window may be omitted, as in `mux capture`, `mux kill :2` or
`mux send .1 Up`. A name has at most 32 letters, digits, - and _. `new NAME` and `-- NAME` accept a name that is also a command.

Settings: the file ~/.config/roam/roam.conf has tmux's syntax. ROAM_PREFIX, ROAM_MOUSE, ROAM_CLIPBOARD, ROAM_PREDICT and ROAM_HISTORY
override it. C-b is the prefix unless ROAM_PREFIX names another key: C-a to C-z, C-], C-\\, C-^ or C-_.

Mouse and clipboard: programs that ask for the mouse get it. With ROAM_MOUSE=on, or after C-b m, roam uses it too: a click activates a
pane, the wheel scrolls, and dragging copies text or moves a border. Copied text goes to the clipboard unless ROAM_CLIPBOARD is off. With
ROAM_CLIPBOARD=on, programs may set the clipboard.

Size: a session has one size. It grows to this terminal if nobody else types there. A smaller terminal shows the part around the cursor,
and its last row shows the key that resizes the session, C-b r.

Predictions: if keys are slow to be shown, roam displays their predicted effect at this terminal alone. --predict always or never after
attach, new or ssh, or ROAM_PREDICT, changes that.

Limits: all terminals of this machine share one client process, 16 at once. A server accepts 64 clients in its lifetime, and each machine
that attaches by ssh uses one. ls shows how many are used if more than 32 are.

Security: only you may enter a session's directory, in XDG_RUNTIME_DIR or /tmp. It contains sockets, the session's id and a log. No
process has the id in its arguments. Only ssh sessions open a port, for encrypted UDP; ROAM_UDP=never on either machine prevents that.
"""
