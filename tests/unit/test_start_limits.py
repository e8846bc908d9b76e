"""The umask and limits of a session's first start, which a restarted pty host gets."""
import os
import resource
import unittest

from aids import Case
from roam_live.session.start_limits import current_limits, set_limits

OPEN = resource.RLIMIT_NOFILE


class Limits(Case):
    """Limits of child processes."""

    def child(self, state, before=lambda: None):
        """Return the umask and the limit of open files of a child with a note's limits."""
        reader, writer = os.pipe()
        child = os.fork()
        if not child:
            before()
            set_limits(state)
            now = current_limits()
            os.write(writer, f"{now['umask']} {now['limits']['RLIMIT_NOFILE']}".encode())
            os._exit(0)
        os.close(writer)
        os.waitpid(child, 0)
        with open(reader, encoding="ascii") as told:
            return told.read()

    def test_restored(self):
        """A child of a login with another umask and lower limits has those of the note."""
        state = {**current_limits(), "umask": 0o27}
        soft, hard = state["limits"]["RLIMIT_NOFILE"]

        def login():
            os.umask(0)
            resource.setrlimit(OPEN, (40, hard))

        self.assertEqual(self.child(state, login), f"{0o27} [{soft}, {hard}]")

    def test_lower(self):
        """A hard limit that a login without privileges can't raise stays, and the soft one goes up to it."""
        state = {**current_limits(), "umask": 0}

        def login():
            resource.setrlimit(OPEN, (20, 40))
            os.setuid(65534)

        if os.getuid():
            self.skipTest("another user needs root")
        self.assertEqual(self.child(state, login), "0 [40, 40]")

    def test_invalid(self):
        """Invalid values of a note change nothing."""
        plain = self.child({})
        for state in ({"umask": -1}, {"umask": "7"}, {"umask": 0o1000}, {"umask": True}, {"limits": []}, {"limits": {"RLIMIT_NOFILE": [1]}},
                      {"limits": {"RLIMIT_NOFILE": ["1", 2]}}, {"limits": {"PATH": [1, 2]}}):
            self.assertEqual(self.child(state), plain, state)


if __name__ == "__main__":
    unittest.main()
