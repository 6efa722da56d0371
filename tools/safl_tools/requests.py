"""Requests to end: an interrupt, a closed terminal and the like. All of them are one KeyboardInterrupt in the main thread.
A thread that ends before it begins is one too, with its own reason: the main thread would wait for it for ever.

One is raised only where it is heeded, and waits while it is held. After it was raised the next ones are dropped, so that
nothing disturbs the cleaning up.
"""
import signal
import sys
import threading
from contextlib import contextmanager

SIGNALS = (signal.SIGINT, signal.SIGTERM, signal.SIGHUP, signal.SIGQUIT)
OWN = signal.SIGUSR1  # what a thread sends to the main thread


class Requests:
    """Whether a request may be raised now, whether one was, and whether one waits; and what is raised in place of an interrupt."""

    is_open = was_raised = waits = False
    why = None

    def come(self, *_):
        if self.is_open:
            self.is_open, self.was_raised, self.waits = False, True, False
            raise self.why or KeyboardInterrupt
        self.waits = not self.was_raised

    def let(self, is_open):
        """Says whether requests may be raised from now on; one that waits is raised."""
        self.is_open = is_open
        if is_open and self.waits:
            self.come()


REQUESTS = Requests()


def lost(found):
    """Takes what Python cannot raise anywhere: if a thread could not begin, as a request."""
    if isinstance(getattr(found.object, "__self__", None), threading.Thread):
        REQUESTS.why = found.exc_value
        signal.pthread_kill(threading.main_thread().ident, OWN)


def take():
    """From now on the signals come here, but for those that the caller has this program ignore, as nohup does."""
    sys.unraisablehook = lost
    signal.signal(OWN, REQUESTS.come)
    for number in SIGNALS:
        if signal.getsignal(number) is not signal.SIG_IGN:
            signal.signal(number, REQUESTS.come)


@contextmanager
def heeded():
    """Raises a request that comes meanwhile."""
    REQUESTS.was_raised = False
    try:
        REQUESTS.let(True)
        yield
    finally:
        REQUESTS.is_open = False


@contextmanager
def held():
    """Has a request wait meanwhile. Other threads than the main one never see any."""
    if threading.current_thread() is not threading.main_thread():
        yield
        return
    before, REQUESTS.is_open = REQUESTS.is_open, False
    try:
        yield
    finally:
        REQUESTS.let(before)
