"""The environment from an attach: the agent symlink, variables, and their report to a shell."""
import contextlib
import os
import socket
import subprocess
import threading
import types
import unittest
from unittest import mock

from aids import Case, StillLoop, led_text, read_now, unled
from roam_live.common.errors import Fault
from roam_live.host.pane import Options, surroundings
from roam_live.host.socket_server import HostSocket
from roam_live.host.window_channel import WindowChannel
from roam_live.session import environment
from roam_live.session.environment import (ENVIRONMENT, LONGEST_VALUE, PaneEnvironment, agent_in, asked_values, begin_agent,
                                           environment_lines, renew_agent, send_environment, shell_lines)

HOSTILE = "$(touch x)'\";`id`\\ #"


class Values(Case):
    """The values, and their lines."""

    def setUp(self):
        self.environment(DISPLAY=":0", WAYLAND_DISPLAY=None, SSH_CONNECTION="::1 5 ::1 22")

    def test_lines(self):
        """Lines give the same values again; none if none is set."""
        self.assertEqual(PaneEnvironment().lines(), ["environment DISPLAY 3a30", "environment WAYLAND_DISPLAY none",
                                                     "environment SSH_CONNECTION 3a3a312035203a3a31203232"])
        for value in ("x", HOSTILE, " ", "~" * LONGEST_VALUE, ""):
            self.environment(WAYLAND_DISPLAY=value)
            line = environment.value_lines(ENVIRONMENT, environment.own_values())[1]
            self.assertLess(len(line), 255)
            known = PaneEnvironment()
            known.values = dict.fromkeys(environment.NAMES, "other")
            self.assertTrue(known.take(line))
            self.assertEqual(known.values["WAYLAND_DISPLAY"], value)

    def test_not_told(self):
        """A longer value, or one that isn't printable ASCII, counts as unset."""
        for value in ("x" * (LONGEST_VALUE + 1), "a\x1b[2J", "a\nb", "\u00e9", "\udcff", "\x7f"):
            self.environment(DISPLAY=value)
            self.assertEqual((PaneEnvironment().lines()[0], PaneEnvironment().set_values()),
                             ("environment DISPLAY none", {"SSH_CONNECTION": "::1 5 ::1 22"}))

    def test_refused(self):
        """Invalid lines change nothing."""
        known = PaneEnvironment()
        for line in ("", "environment", "environment DISPLAY", "environment DISPLAY ", "environment DISPLAY 3", "environment DISPLAY 3A",
                     "environment DISPLAY 3a 3a",
                     "environment DISPLAY 3a ", "environment DISPLAY 1b", "environment DISPLAY e9", "environment DISPLAY 0a",
                     "environment LD_PRELOAD 3a30",
                     "environment  3a", f"environment DISPLAY {'3a' * (LONGEST_VALUE + 1)}", "environment DISPLAY \u0663\u0663"):
            self.assertFalse(known.take(line), line)
        self.assertEqual(known.values, {"DISPLAY": ":0", "WAYLAND_DISPLAY": "", "SSH_CONNECTION": "::1 5 ::1 22"})
        self.assertTrue(known.take("environment DISPLAY none"))
        self.assertEqual(known.set_values(), {"SSH_CONNECTION": "::1 5 ::1 22"})


class Agents(Case):
    """The agent symlink."""

    def setUp(self):
        self.folder, self.other = self.made_folder(), self.made_folder()
        self.link = self.folder / "agent"
        self.one, self.two = (self.agent(name) for name in ("one", "two"))

    def agent(self, name):
        """Create an agent's socket, and return its path."""
        self.listening(self.other / name)
        return str(self.other / name)

    def renew(self, path):
        """Return the symlink's target after an attach with this variable."""
        self.environment(SSH_AUTH_SOCK=path)
        renew_agent(self.folder)
        return os.readlink(self.link) if self.link.is_symlink() else None

    def test_renewed(self):
        """Each attach points it at its own agent, and no other file remains, even of a killed one."""
        (self.folder / f"agent.{os.getpid()}").touch()
        self.assertEqual([self.renew(path) for path in (self.one, self.two)], [self.one, self.two])
        self.assertEqual(os.listdir(self.folder), ["agent"])
        with socket.socket(socket.AF_UNIX) as peer:
            peer.connect(str(self.link))

    def test_refused(self):
        """A path that is no socket of this user leaves the symlink unchanged, or creates none."""
        file = self.other / "file"
        file.touch()
        wrong = (None, "", str(file), str(self.other), str(self.other / "gone"), os.path.relpath(self.one), "x" * 5000)
        for path in wrong:
            self.assertIsNone(self.renew(path), path)
        self.renew(self.one)
        for path in wrong:
            self.assertEqual(self.renew(path), self.one, path)
        with mock.patch("os.getuid", return_value=os.getuid() + 1):
            self.assertFalse(environment.is_socket(self.two, True))
            self.assertEqual(self.renew(self.two), self.one)
        self.assertEqual(os.listdir(self.folder), ["agent"])

    def test_another_folder(self):
        """In a folder of another user no symlink is created."""
        with mock.patch.object(environment, "is_own_folder", return_value=False):
            self.assertIsNone(self.renew(self.one))

    def test_full(self):
        """If no symlink can be created the old one stays."""
        self.renew(self.one)
        for call in ("symlink", "replace"):
            with mock.patch.object(environment.os, call, side_effect=OSError(28, "full")):
                self.assertEqual(self.renew(self.two), self.one)
        self.assertEqual(os.listdir(self.folder), ["agent"])

    def test_itself(self):
        """No symlink leads to itself, over any number of others: an attach from a pane of the session sends the agent that it has from
        there.
        """
        self.renew(self.one)
        inner = self.other / "inner"
        inner.symlink_to(os.path.relpath(self.link, self.other))
        (self.other / "folder").symlink_to(self.folder)
        for path in (self.link, inner, self.other / "folder/agent"):
            self.assertEqual(self.renew(str(path)), self.one)
        (self.other / "further").symlink_to("two")
        self.assertEqual(self.renew(str(self.other / "further")), str(self.other / "further"))

    def test_begun(self):
        """The host creates one if there is none; an existing one stays, even a dangling one."""
        self.environment(SSH_AUTH_SOCK=self.one)
        begin_agent(self.folder)
        self.assertEqual(os.readlink(self.link), self.one)
        os.unlink(self.one)
        self.environment(SSH_AUTH_SOCK=self.two)
        begin_agent(self.folder)
        self.assertEqual(os.readlink(self.link), self.one)

    def test_in_pane(self):
        """A pane has the symlink, even before an attach creates it; another user's agent stays until one does."""
        for path in (None, "", str(self.other / "gone"), str(self.other)):
            self.environment(SSH_AUTH_SOCK=path)
            self.assertEqual(agent_in(self.folder), str(self.link))
        self.environment(SSH_AUTH_SOCK=self.one)
        self.assertEqual(agent_in(self.folder), self.one)
        renew_agent(self.folder)
        self.assertEqual(agent_in(self.folder), str(self.link))


class Brings(Case):
    """Front ends that send the environment, and their hosts."""

    def setUp(self):
        self.folder = self.made_folder()
        self.environment(DISPLAY=":7", WAYLAND_DISPLAY=None, SSH_CONNECTION=None, SSH_AUTH_SOCK=str(self.folder / "own"))
        self.listening(self.folder / "own")
        self.session = types.SimpleNamespace(name="main", folder=self.folder, common=self.folder, served="server")
        self.loop = StillLoop(lambda: self.now)

    def host(self):
        """Return a host's socket there."""
        one = HostSocket(self.loop)
        WindowChannel(one)
        one.listen(self.folder)
        self.addCleanup(one.close)
        return one

    def has_link(self):
        """Return True if there is an agent symlink."""
        return (self.folder / "agent").is_symlink()

    def test_attach(self):
        """A read-write one sends it; a read-only one, a remote one, and one without a folder send nothing."""
        self.assertEqual((environment_lines(self.session, True), self.has_link()), ([], False))
        for more in ({"served": "relay"}, {"folder": None}):
            self.assertEqual(environment_lines(types.SimpleNamespace(**{**vars(self.session), **more}), False), [])
        self.assertFalse(self.has_link())
        self.assertEqual(environment_lines(self.session, False)[0], "environment DISPLAY 3a37")
        self.assertTrue(self.has_link())

    def test_relayed(self):
        """A relay's folder gets nothing, however the session was named: its host is at another machine."""
        self.assertFalse(environment.is_relayed(self.folder))
        self.listening(self.folder / "clients")
        told = (("python3\0/usr/bin/roam-relay\0--dir\0d\0", True), ("python3\0/x/live/relay\0", True), ("/x/relay\0", True),
                ("/x/roam\0serve\0--dir\0relay\0", False), ("", False))
        for words, is_relayed in told:
            with mock.patch.object(environment, "open", mock.mock_open(read_data=words.encode()), create=True) as opens:
                self.assertEqual(environment_lines(self.session, False) == [], is_relayed, words)
            opens.assert_called_once_with(f"/proc/{os.getpid()}/cmdline", "rb")
            self.assertEqual(self.has_link(), not is_relayed)
            (self.folder / "agent").unlink(missing_ok=True)

    def test_far(self):
        """The far end sends the environment at once if there is a host; without one it continues."""
        send_environment(self.session)
        self.assertTrue(self.has_link())
        host = self.host()
        host.pane_environment.values = dict.fromkeys(environment.NAMES, "old")
        send_environment(self.session)
        self.loop.turns(4)
        self.assertEqual((host.pane_environment.set_values(), host.peers), ({"DISPLAY": ":7"}, []))

    def told(self, *host_lines):
        """Return the output for a shell if a host answers with these lines."""
        (self.folder / "host").unlink(missing_ok=True)
        listener = self.listening(self.folder / "host")
        listener.setblocking(True)

        def answer():
            with contextlib.suppress(OSError), listener.accept()[0] as peer:
                peer.recv(100)
                peer.send("".join(f"{line}\n" for line in host_lines).encode())

        thread = threading.Thread(target=answer)
        thread.start()
        try:
            return shell_lines(self.session)
        finally:
            thread.join()

    def test_told(self):
        """A shell gets exactly the sent values, and runs nothing of them; and the symlink if there is one."""
        renew_agent(self.folder)
        waits = self.patch_of(environment, "comes", side_effect=environment.comes)
        lines = self.told(f"environment DISPLAY {HOSTILE.encode().hex()}", "environment WAYLAND_DISPLAY none",
                          "environment SSH_CONNECTION 2d6e")
        # Once everything is here there is no further wait.
        self.assertEqual(waits.call_count, 1)
        script = "\n".join([*lines, 'printf "%s|" "$DISPLAY" "${WAYLAND_DISPLAY-unset}" "$SSH_CONNECTION" "$SSH_AUTH_SOCK"; ls'])
        run = subprocess.run(["sh", "-c", script], cwd=self.made_folder(), stdout=subprocess.PIPE, stderr=subprocess.PIPE, check=True,
                             env={"WAYLAND_DISPLAY": "old", "PATH": os.environ["PATH"]})
        self.assertEqual((run.stdout.decode(), run.stderr), (f"{HOSTILE}|unset|-n|{self.folder}/agent|", b""))

    def test_not_told(self):
        """A missing host, or one without these lines, is reported."""
        with self.assertRaisesRegex(Fault, r"^session main: its pty host is not running \("):
            asked_values(self.session)
        for says in (["bad line"], ["environment DISPLAY none", "environment DISPLAY none", "environment PATH 3a"], []):
            with self.assertRaisesRegex(Fault, "^session main: the pty host did not report the environment$"):
                self.told(*says)

    def test_host(self):
        """The host takes values of read-write terminals, sends them on request, and takes none of read-only ones."""
        host = self.host()
        one = socket.socket(socket.AF_UNIX)
        self.addCleanup(one.close)
        one.connect(str(self.folder / "host"))
        one.setblocking(False)
        for text, answer in (("environment\n",
                              f"{ENVIRONMENT} DISPLAY 3a37\n{ENVIRONMENT} WAYLAND_DISPLAY none\n{ENVIRONMENT} SSH_CONNECTION none\n"),
                             ("environment WAYLAND_DISPLAY 3a38\n", ""), ("here a 24 80 read-write\nenvironment DISPLAY none\n", ""),
                             ("here a 24 80 read-only\nenvironment DISPLAY 3a39\n", "bad line\n"), ("environment PATH 3a\n", "bad line\n")):
            one.send(led_text(text.encode(), 0))
            self.loop.turns(3)
            self.assertEqual(unled(read_now(one)).decode(), answer, text)
        self.assertEqual(host.pane_environment.set_values(), {"WAYLAND_DISPLAY": ":8"})

    def test_pane(self):
        """A new pane has the sent values, in place of those in the host's own environment."""
        known = PaneEnvironment()
        known.take("environment WAYLAND_DISPLAY 3a38")
        known.take("environment DISPLAY none")
        found = surroundings(Options(folder=str(self.folder)), 2, known)
        self.assertEqual([found.get(name) for name in (*environment.NAMES, "ROAM_PANE")], [None, ":8", None, f"{self.folder}:2"])
        self.assertEqual(found["SSH_AUTH_SOCK"], str(self.folder / "own"))


if __name__ == "__main__":
    unittest.main()
