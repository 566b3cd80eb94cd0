"""The two programs of a server, and the signals that end it, each as something that can be waited for."""
import contextlib
import ctypes
import os
import select
import signal
import subprocess
import time

# How long a part is waited for that ends by itself, in seconds.
PATIENCE = 5
# How long both have to end that were told to. The gateway has one second of it for replies, and then the server ends with its pipes.
LIMIT = 10
# Seconds between two looks whether they have ended.
TICK = 0.01
# Seconds after the end of one part in which the end of another, or a signal, counts as one with it.
MOMENT = 0.2
PR_SET_PDEATHSIG = 1
SIGNALS = [signal.SIGTERM, signal.SIGINT]
LIBC = ctypes.CDLL(None)


class Signalled(Exception):
    """SIGTERM or SIGINT came."""


class Interrupted(Exception):
    """The same while something was built; by its number."""


def interrupt(number, _):
    raise Interrupted(number)


class Signals:
    """SIGTERM and SIGINT as input of a file, so that they can be waited for together with others.

    bin/farserve starts this with both blocked, so one that comes early waits until it is taken here.
    """

    def __init__(self):
        self.input, self.output = os.pipe()
        for end in (self.input, self.output):
            os.set_blocking(end, False)
        signal.set_wakeup_fd(self.output, warn_on_full_buffer=False)
        # When the first one came, and whether a second did. (One that came with it, for example to the process and to its group, is none.)
        self.first, self.is_second = None, False
        self.handle(self.note)
        signal.pthread_sigmask(signal.SIG_UNBLOCK, SIGNALS)

    def handle(self, handler):
        for name in SIGNALS:
            signal.signal(name, handler)

    def note(self, *_):
        now = time.monotonic()
        self.first = now if self.first is None else self.first
        self.is_second = self.is_second or now - self.first > MOMENT

    def come_within(self, seconds):
        return bool(select.select([self.input], [], [], seconds)[0])

    def check(self):
        if self.come_within(0):
            raise Signalled

    def wait(self, parts):
        """Gives the parts of which output came, or its end, once there are some."""
        ready = select.select([self.input, *(it.output for it in parts)], [], [])[0]
        if self.input in ready:
            raise Signalled
        return [it for it in parts if it.output in ready]

    def wait_for_ends(self, parts, limit):
        """Waits until all of these have ended. Gives "", or why it waits no more: at this time, or at a second signal."""
        while any(it.process.poll() is None for it in parts):
            if self.is_second:
                return "at a second signal"
            if time.monotonic() > limit:
                return f"since {LIMIT} seconds were not enough"
            time.sleep(TICK)
        return ""

    @contextlib.contextmanager
    def interrupting(self):
        """A signal breaks off what is done here."""
        self.handle(interrupt)
        # (one that came just before)
        self.check()
        try:
            yield
        finally:
            self.handle(self.note)


class Part:
    """One of the two programs, which ends when this one does."""

    def __init__(self, name, words, ignored, environment):
        def prepare():
            LIBC.prctl(PR_SET_PDEATHSIG, signal.SIGKILL)
            # A file that may not grow is a write that fails, and not the end.
            for it in (signal.SIGXFSZ, *ignored):
                signal.signal(it, signal.SIG_IGN)

        self.name = name
        pipes = {"stdin": subprocess.DEVNULL, "stdout": subprocess.PIPE}
        self.process = subprocess.Popen(words, preexec_fn=prepare, env={**environment, **os.environ}, **pipes)
        self.output = self.process.stdout

    def has_ended(self):
        """Whether it ends within a moment, as one whose pipes were seen to close does."""
        with contextlib.suppress(subprocess.TimeoutExpired):
            self.process.wait(MOMENT)
        return self.process.returncode is not None

    def status(self):
        """The status that it ends with, by itself or for want of time."""
        with contextlib.suppress(subprocess.TimeoutExpired):
            return self.process.wait(PATIENCE)
        self.process.kill()
        return self.process.wait()

    def kill(self):
        """Ends it at once, if it hasn't ended. Gives whether it had not."""
        if self.process.poll() is not None:
            return False
        self.process.kill()
        return self.process.wait() == -signal.SIGKILL
