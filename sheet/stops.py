"""Signals to stop, held back where something must not be left half done."""
import contextlib
import signal

STOPS = {signal.SIGINT, signal.SIGTERM, signal.SIGHUP}


@contextlib.contextmanager
def held():
    """A signal that comes meanwhile waits for the end."""
    before = signal.pthread_sigmask(signal.SIG_BLOCK, STOPS)
    try:
        yield
    finally:
        signal.pthread_sigmask(signal.SIG_SETMASK, before)


def let_through():
    """For a process that was started where signals are held."""
    signal.pthread_sigmask(signal.SIG_UNBLOCK, STOPS)
