"""The word of mux that a wrong one probably means, and the valid names."""
import unittest

from roam_live.cli.args import meant, slips, tmux_words, told_of_tmux

WORDS = ["attach", "new", "detach", "ls", "list", "watch", "kill", "send", "capture", "env", "ssh", "far", "help"]

# Typing errors, and the intended words.
SLIPS = {
    "lst": "ls", "sl": "ls", "lss": "ls", "lis": "ls", "lits": "list", "lsit": "list", "atach": "attach", "attahc": "attach",
    "attch": "attach", "atttach": "attach", "detahc": "detach", "watc": "watch", "wacth": "watch", "wtch": "watch", "kil": "kill",
    "kll": "kill", "klil": "kill", "killl": "kill", "sned": "send", "captrue": "capture", "capure": "capture", "hlep": "help",
    "hel": "help", "nwe": "new", "shs": "ssh", "sssh": "ssh",
}

# The commands of tmux 3.3a and their aliases, from its list-commands.
OF_TMUX = """
    attach-session attach bind-key bind break-pane breakp capture-pane capturep choose-buffer choose-client choose-tree
    clear-history clearhist clear-prompt-history clearphist clock-mode command-prompt confirm-before confirm copy-mode
    customize-mode delete-buffer deleteb detach-client detach display-menu menu display-message display display-popup popup
    display-panes displayp find-window findw has-session has if-shell if join-pane joinp kill-pane killp kill-server kill-session
    kill-window killw last-pane lastp last-window last link-window linkw list-buffers lsb list-clients lsc list-commands lscm
    list-keys lsk list-panes lsp list-sessions ls list-windows lsw load-buffer loadb lock-client lockc lock-server lock
    lock-session locks move-pane movep move-window movew new-session new new-window neww next-layout nextl next-window next
    paste-buffer pasteb pipe-pane pipep previous-layout prevl previous-window prev refresh-client refresh rename-session rename
    rename-window renamew resize-pane resizep resize-window resizew respawn-pane respawnp respawn-window respawnw rotate-window
    rotatew run-shell run save-buffer saveb select-layout selectl select-pane selectp select-window selectw send-keys send
    send-prefix server-access set-buffer setb set-environment setenv set-hook set-option set set-window-option setw show-buffer
    showb show-environment showenv show-hooks show-messages showmsgs show-options show show-prompt-history showphist
    show-window-options showw source-file source split-window splitw start-server start suspend-client suspendc swap-pane swapp
    swap-window swapw switch-client switchc unbind-key unbind unlink-window unlinkw wait-for wait
""".split()

# Words that are no typing errors.
NAMES = (
    "main", "w", "l", "s", "log", "logs", "web", "net", "dev", "work", "api", "db", "now", "car", "bar", "build", "mail", "test",
    "notes", "server", "cm", "en", "lo", "atac", "wotsh", "capt", "ps", "top", "x1", "emacs", "irc", "prod", "python",
)


class Meant(unittest.TestCase):
    """Tests of `meant`."""

    def test_slips(self):
        for name, word in SLIPS.items():
            self.assertEqual(meant(name, WORDS), word, name)

    def test_words_of_tmux(self):
        """Each word of tmux is known, and its equivalent is shown, or that there is none."""
        self.assertEqual([word for word in OF_TMUX if word not in tmux_words()], [])
        for name, told in (("a", "a is a tmux command; in roam, use `roam mux attach NAME`"),
                           ("lsk", "lsk is a tmux command; in roam, use C-b ?"),
                           ("kill-server", "kill-server is a tmux command; in roam, use `roam mux kill NAME`"),
                           ("splitw", "splitw is a tmux command; in roam, use `roam mux cmd NAME split-window`"),
                           ("swap-pane", "swap-pane: roam does not support this tmux command"),
                           ("info", "info: roam does not support this tmux command"),
                           ("work", "")):
            self.assertEqual(told_of_tmux(name, "roam mux"), told)

    def test_names(self):
        for name in NAMES:
            self.assertEqual(meant(name, WORDS), "", name)

    def test_distance(self):
        for word, name, count in (("attach", "attach", 0), ("attach", "attahc", 1), ("attach", "atch", 2), ("new", "net", 2),
                                  ("kill", "bill", 1), ("ls", "", 2), ("", "ab", 2), ("send", "sendx", 1), ("capture", "rapturf", 2)):
            self.assertEqual(slips(word, name), count, (word, name))


if __name__ == "__main__":
    unittest.main()
