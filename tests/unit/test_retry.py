"""Pauses between attempts."""
import unittest

from roam_live.common.retry import Retry


class Pauses(unittest.TestCase):
    """The pause before the next attempt."""

    def test_grows(self):
        """Each failure in a row makes it longer, up to the last."""
        retry = Retry((1, 2, 5))
        self.assertEqual((retry.pause(), [retry.fails() for _ in range(4)], retry.pause()), (0.0, [1, 2, 5, 5], 5))

    def test_sound(self):
        """A run of five seconds was no failure, and a shorter one was."""
        retry = Retry((1, 2, 5))
        for lasted, pause in ((5.0, 1), (4.9, 2), (0.0, 5), (6.0, 1), (4.0, 2)):
            retry.begins(100.0)
            retry.ends(100.0 + lasted)
            self.assertEqual(retry.fails(), pause, lasted)

    def test_first(self):
        """Something that never existed doesn't count as an early end; another duration may be set."""
        retry = Retry((1, 2, 5), 10.0)
        retry.ends(0.0)
        retry.fails()
        retry.begins(7.0)
        retry.ends(16.0)
        self.assertEqual(retry.fails(), 2)
        retry.ends(17.0)
        self.assertEqual(retry.faults, 0)

    def test_others(self):
        """Failures of another kind count if they are more."""
        retry = Retry((1, 2, 5))
        self.assertEqual([retry.pause(others) for others in range(5)], [0.0, 1, 2, 5, 5])
        retry.fails()
        retry.fails()
        self.assertEqual([retry.pause(others) for others in range(5)], [2, 2, 2, 5, 5])


if __name__ == "__main__":
    unittest.main()
