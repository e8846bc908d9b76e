"""`mux cmd`: the commands that work from outside, and those of a terminal."""
import unittest
from unittest import mock

from aids import Case
from roam_live.cli import cmd
from roam_live.commands.flags import parted
from roam_live.common.errors import Fault

# Words, the function that they call, and its arguments after the window.
DONE = (("split-window -h", "cli.send.send", (["split right"], 2)), ("kill-pane", "cli.send.send", (["close"], 2)),
        ("select-pane -t 3", "cli.send.send", (["focus 3"], 2)), ("send-keys a Up", "cli.send.send", (["char 61", "key up"], 2)),
        ("rename-window my own", "cli.windows.rename", ("my own",)),
        ("kill-window", "cli.windows.shut", ()), ("detach-client -a", "cli.windows.detach_others", ()))


class Outside(Case):
    """Commands from outside."""

    def test_done(self):
        for words, does, behind in DONE:
            with mock.patch(f"roam_live.{does}", return_value=0) as done:
                self.assertEqual(cmd.run("window", 2, words.split(" ")), 0)
            done.assert_called_once_with("window", *behind)

    def test_window(self):
        """Later commands go to a new window, unless it is opened beside."""
        window, other = mock.Mock(), mock.Mock()
        window.window.side_effect = {2: other}.__getitem__
        for words, target in (("new-window ; rename-window foo", other), ("new-window -d ; rename-window foo", window)):
            with mock.patch("roam_live.cli.windows.opened_window", return_value=2) as opened, \
                    mock.patch("roam_live.cli.windows.rename", return_value=0) as renamed:
                self.assertEqual(cmd.run(window, 0, words.split(" ")), 0)
            self.assertEqual((opened.call_args[0][0], renamed.call_args_list), (window, [mock.call(target, "foo")]))

    def test_chain(self):
        """A word `;`, or one at the end of a word, separates commands; after a split the pane in focus is the next one's."""
        chains = (["split-window", "-h", ";", "send-keys", "echo x", "Enter"], ["split-window", "-h;", "send-keys", "echo x", "Enter", ";"])
        for words in chains:
            with mock.patch("roam_live.cli.send.send", return_value=0) as sent:
                self.assertEqual(cmd.run("window", 2, words), 0)
            keys = [f"char {ord(letter):x}" for letter in "echo x"] + ["key return"]
            self.assertEqual(sent.call_args_list, [mock.call("window", ["split right"], 2), mock.call("window", keys, 0)])
        self.assertEqual(parted(["send-keys", "a\\;", "b"]), [["send-keys", "a;", "b"]])

    def test_chain_refused(self):
        """Nothing runs unless each command can be read; a failure ends the chain."""
        with mock.patch("roam_live.cli.send.send", return_value=1) as sent:
            for words in ("split-window -h ; nosuch", "split-window ; copy-mode", "kill-pane ; rename-window", "; ;"):
                with self.assertRaises(Fault):
                    cmd.run("window", 0, words.split(" "))
            sent.assert_not_called()
            self.assertEqual(cmd.run("window", 0, ["kill-pane", ";", "kill-pane"]), 1)
        sent.assert_called_once()

    def test_refused(self):
        for words in ("resize-pane -Z", "run-shell ls", "select-window -t 2", "copy-mode", "rename-window", "set -g mouse on", "nosuch"):
            with self.assertRaises(Fault):
                cmd.run("window", 0, words.split(" "))


if __name__ == "__main__":
    unittest.main()
