"""The watchdog of the pty host: it restarts the host, after growing pauses if that ends at once."""
import os
import unittest
from unittest import mock

from aids import StillLoop
from roam_live.common.errors import Fault
from roam_live.common.retry import SOUND
from roam_live.session.host_watchdog import LOOKS, PAUSES, STOPPED, HostWatchdog


class AnySession:
    """A session whose pty host can be restarted, or can't."""

    name = "main"

    def __init__(self):
        self.fault = None
        self.revived = 0
        self.is_revived = self.has_own = True
        self.processes = {"host": 17}

    def process(self, role):
        """Return the process of a role."""
        return self.processes.get(role)

    def owns_host(self):
        """Return True if it is restarted here."""
        return self.has_own

    def revive_host(self):
        """Restart it."""
        if self.fault:
            raise self.fault
        self.revived += self.is_revived
        return self.is_revived


class Watches(unittest.TestCase):
    """A watchdog of a process that is a pipe here, with a manual clock."""

    def setUp(self):
        self.now, self.writer = 100.0, None
        for patched in (mock.patch("time.monotonic", lambda: self.now),
                        mock.patch("roam_live.session.host_watchdog.opened_process", self.opened)):
            patched.start()
            self.addCleanup(patched.stop)
        self.place = AnySession()
        self.loop, self.said = StillLoop(), []
        self.watch = HostWatchdog(self.place, self.loop, self.said.append)
        self.addCleanup(lambda: self.watch.file and os.close(self.watch.file))

    def opened(self, process):
        """Return a running process."""
        reader, writer = os.pipe()
        os.close(writer)
        return reader

    def end(self):
        """End the process, and return the messages."""
        self.loop.turn()
        return self.told()

    def told(self):
        """Return the new messages."""
        said = "".join(self.said)
        self.said.clear()
        return said

    def pass_time(self):
        """Wait until a timer is due, run it, and return the wait and the messages."""
        wait = self.loop.wait_time()
        self.now += wait
        self.loop.do_due()
        return round(wait, 3), self.told()

    def test_stopped(self):
        """A user who types sees that the host is stopped, within five seconds and for as long as it is; without a key nothing is checked.
        """
        stopped = self.patch_of_stop(True)
        self.now += 100
        self.assertEqual((self.loop.wait_time(), self.told()), (None, ""))
        self.watch.typed()
        self.watch.typed()
        self.assertEqual(self.pass_time(), (LOOKS, STOPPED))
        self.assertEqual(self.pass_time(), (LOOKS, STOPPED))
        stopped.return_value = False
        self.assertEqual(self.pass_time(), (LOOKS, ""))
        self.assertIsNone(self.loop.wait_time())
        self.watch.typed()
        self.watch.stop()
        self.assertIsNone(self.loop.wait_time())

    def patch_of_stop(self, is_stopped):
        """Simulate a stopped or running process."""
        patched = mock.patch("roam_live.session.host_watchdog.is_stopped", return_value=is_stopped)
        self.addCleanup(patched.stop)
        return patched.start()

    def test_once(self):
        """A host that ran for long is restarted soon after its end, and reported once it is back."""
        self.now += SOUND + 1
        self.assertEqual(self.end(), "")
        self.assertEqual(self.end(), "")
        wait, said = self.pass_time()
        self.assertEqual(wait, PAUSES[0])
        self.assertTrue(said.startswith("the pty host was restarted: the shells are new"))
        self.assertIsNone(self.loop.wait_time())

    def test_again(self):
        """A host that always ends at once is restarted after growing pauses, and that is reported."""
        self.now += SOUND + 1
        waits, said = [], []
        for _ in range(8):
            said.append(self.end())
            waits.append(self.pass_time()[0])
        self.assertEqual(waits, [*PAUSES, PAUSES[-1], PAUSES[-1]])
        self.assertEqual(said[0], "")
        wanted = [f"the pty host ended again; it is restarted in {wait} s" for wait in (*PAUSES[1:], PAUSES[-1], PAUSES[-1])]
        self.assertEqual(said[1:], wanted)
        self.now += SOUND + 1
        self.assertEqual(self.end(), "")
        self.assertEqual(self.pass_time()[0], PAUSES[0])

    def test_refused(self):
        """A failure to start is reported with the reason, and retried after growing pauses."""
        self.place.fault = Fault("session main: no room")
        self.now += SOUND + 1
        self.end()
        told = [self.pass_time() for _ in range(3)]
        self.assertEqual([wait for wait, _ in told], list(PAUSES[:3]))
        self.assertEqual(told[0][1], f"the shells have ended: no room; next try in {PAUSES[1]} s")
        self.place.fault = None
        self.assertTrue(self.pass_time()[1].startswith("the pty host was restarted"))

    def test_ended_before(self):
        """A host that ended before the first look is restarted too, unless another machine has it."""
        self.place.processes["host"] = None
        loop = StillLoop()
        HostWatchdog(self.place, loop, self.said.append)
        self.assertAlmostEqual(loop.wait_time(), PAUSES[0])
        self.place.has_own, loop = False, StillLoop()
        HostWatchdog(self.place, loop, self.said.append)
        self.assertIsNone(loop.wait_time())

    def test_ended_between(self):
        """A restarted host that ends before it is watched is restarted again, and nothing says that it runs."""
        self.end()
        self.place.processes["host"] = None
        self.assertEqual(self.pass_time()[1], "")
        self.place.processes["host"] = 17
        with mock.patch("roam_live.session.host_watchdog.opened_process", side_effect=Fault("the session has ended")):
            self.assertEqual(self.pass_time()[1], "")
        self.assertTrue(self.pass_time()[1].startswith("the pty host was restarted"))
        self.assertEqual(self.place.revived, 3)

    def test_by_another(self):
        """If another process starts it, or the session ends, nothing is reported."""
        self.place.is_revived = False
        self.end()
        self.assertEqual(self.pass_time()[1], "")
        self.place.is_revived = True
        self.assertEqual(self.pass_time()[0], PAUSES[1])
