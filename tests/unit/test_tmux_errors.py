"""The messages and statuses of `roam tmux` for wrong calls, as tmux 3.3a printed them."""
import io
import pathlib
import shlex
import sys
import unittest
from unittest import mock

from aids import Case
from roam_live.cli.tmux import tool
from roam_live.cli.tmux.context import Failed
from roam_live.commands.flags import BadCommand
from tmux_played import PlayedContext

TABLE = pathlib.Path(__file__).with_name("tmux_errors.table")

USAGE = """usage: tmux [-2CDlNuvV] [-c shell-command] [-f file] [-L socket-name]
            [-S socket-path] [-T features] [command [flags]]
"""

# Words before a command, the status, and what tmux 3.3a prints on standard error. Control mode is roam's own refusal.
OPTIONS = ((["-Q"], 1, f"tmux: unknown option -- Q\n{USAGE}"), (["-L"], 1, f"tmux: option requires an argument -- L\n{USAGE}"),
           (["-h"], 1, f"tmux: unknown option -- h\n{USAGE}"), (["-C", "ls"], 1, "tmux: roam does not support control mode (-C)\n"))


class Errors(Case):
    """Wrong calls."""

    def context(self):
        """Return a context with one session of one window and one pane."""
        return PlayedContext(self, {"a": [("one", [(1, 1, 30, 100)])]})

    def fate(self, context, words):
        """Return the status and the message of a call."""
        try:
            tool.run(context, words)
        except Failed as ended:
            return ended.status, ""
        except BadCommand as fault:
            return 1, str(fault)
        return 0, ""

    def test_table(self):
        """Each line of the table, and nothing is printed or changed."""
        rows = [line.rstrip("\n").split("\t") for line in TABLE.read_text(encoding="utf-8").split("\n") if line and line[0] != "#"]
        self.assertGreaterEqual(len(rows), 60)
        context = self.context()
        before = str(context.model().state)
        for words, status, message in rows:
            self.assertEqual(self.fate(context, shlex.split(words)), (int(status), message), words)
            self.assertEqual((context.printed(), str(context.model().state)), ("", before), words)

    def test_all_first(self):
        """Nothing is done if one command of a sequence is invalid; the first that fails ends the sequence."""
        context = self.context()
        for words, told in ((["set", "-g", "@x", "1", ";", "nosuch"], "unknown command: nosuch"),
                            (["has", "-t", "b", ";", "set", "-g", "@x", "1"], "can't find session: b")):
            self.assertEqual(self.fate(context, words), (1, told))
            self.assertEqual(context.model().state["session_options"], {})

    def test_no_server(self):
        """Without a session most commands say that there is no server, by the path that tmux would use."""
        context = PlayedContext(self, {})
        path = context.space.path
        self.assertEqual(self.fate(context, ["ls"]), (1, f"error connecting to {path} (No such file or directory)"))
        self.assertEqual(self.fate(context, ["nosuch"]), (1, f"error connecting to {path} (No such file or directory)"))
        self.assertEqual(self.fate(context, ["start-server"]), (0, ""))
        self.assertEqual(self.fate(context, ["ls"]), (1, f"no server running on {path}"))
        self.assertEqual(self.fate(context, ["attach"]), (1, "no sessions"))

    def test_options(self):
        """The options before a command."""
        for words, status, told in OPTIONS:
            with mock.patch.object(sys, "stderr", io.StringIO()) as said:
                self.assertEqual((tool.main(words), said.getvalue()), (status, told), words)
        with mock.patch.object(sys, "stdout", io.StringIO()) as said:
            self.assertEqual((tool.main(["-L", "x", "-V"]), said.getvalue()), (0, "tmux 3.3a\n"))


if __name__ == "__main__":
    unittest.main()
