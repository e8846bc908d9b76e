"""Signals. `signal` is the C module behind the standard library's `signal`, with the same names.

The Python module makes an enum of each number. With its imports that takes 66,000 bytecodes, more than an attach until it shows the window.
"""
TYPE_CHECKING = False
if TYPE_CHECKING:
    import signal
else:
    import _signal as signal

__all__ = ["signal"]
