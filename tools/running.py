"""Runs of programs: what each wrote, its status, and what it took."""
import os
import signal
import subprocess
import tempfile
import time

from .workspace import NO_RT, ROOT, Stop


class Ran:
    """How a program ended: its status, the bytes of both outputs, seconds of the processor and on the clock."""

    def __init__(self, words, status, out, err, seconds, clock, is_late):
        self.words, self.status, self.out, self.err = words, status, out, err
        self.seconds, self.clock, self.is_late = seconds, clock, is_late

    def ending(self):
        """How it ended, in words. One whose stack is too small ends by SIGSEGV."""
        if self.is_late:
            return f"it took more than {self.clock:.0f} seconds"
        return f"status {self.status}" if self.status >= 0 else signal.Signals(-self.status).name

    def said(self):
        return (self.out + self.err).decode(errors="replace").strip()


def run(words, given=b"", limit=None, cwd=None, env=None, merged=False):
    """Runs a program on bytes, which it is given as a file; ends it after so many seconds. With `merged` both outputs are one."""
    with tempfile.TemporaryFile() as page, tempfile.TemporaryFile() as out, tempfile.TemporaryFile() as err:
        page.write(given)
        page.seek(0)
        started = time.monotonic()
        outputs = {"stdout": out, "stderr": out if merged else err}
        try:
            process = subprocess.Popen(words, stdin=page, cwd=cwd, env=env, **outputs)
        except FileNotFoundError as error:
            raise Stop(NO_RT if words[0] == "rt" else f"{error.filename} is not there: {' '.join(words)}") from None
        status, used, is_late = _ended(process, limit)
        clock = time.monotonic() - started
        out.seek(0)
        err.seek(0)
        return Ran(words, status, out.read(), err.read(), used.ru_utime + used.ru_stime, clock, is_late)


def _ended(process, limit):
    """The status of a process once it ended, what it used, and whether the limit ended it."""
    end, is_late, ended = limit and time.monotonic() + limit, False, 0
    while not ended:
        ended, status, used = os.wait4(process.pid, os.WNOHANG if limit else 0)
        if limit and not ended:
            is_late = is_late or time.monotonic() > end
            os.kill(process.pid, signal.SIGKILL) if is_late else time.sleep(0.002)
    process.returncode = os.waitstatus_to_exitcode(status)
    return process.returncode, used, is_late


def must(words, why, **how):
    """Runs a program whose status has to be 0; says what it said where it isn't. What is wrong is the sentence that is given."""
    ran = run(words, **how)
    if ran.status:
        raise Stop(f"{why}: {' '.join(map(str, words))}: {ran.ending()}\n{ran.said()}")
    return ran


def short_path(file):
    """The path of a file as a reader of what is said would write it."""
    path = os.path.relpath(file, ROOT)
    return file if path.startswith("..") else path


def count(number, noun):
    return f"{number} {noun}{'s' * (number != 1)}"
