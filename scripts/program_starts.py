"""Starts of the program as it is built, one after another, for the scripts here that start it very often."""

import os
import select
import signal
import sys
import tempfile

ROOT = os.path.dirname(os.path.dirname(os.path.abspath(__file__)))
BUILT = os.path.join(ROOT, "crates", "speclog", "out", "speclog")
MOST_SECONDS = 120


def path_of(given):
    """The program's whole path; ends the script where no program is there."""
    path = os.path.abspath(given)
    if not os.access(path, os.X_OK):
        sys.exit(f"{path} isn't there: build it first, by ./speclog play < examples/first_record.script")
    return path


class Program:
    """The program at a path; its input and outputs are files that are used again."""

    def __init__(self, path):
        self.path = path
        self.environment = dict(os.environb)
        self.files = [tempfile.TemporaryFile() for _ in range(3)]

    def start(self, words, text, environment=None):
        """The status (None after more than MOST_SECONDS, negative for a signal), and what was written on the two outputs."""
        for file in self.files:
            file.seek(0)
            file.truncate()
        self.files[0].write(text)
        self.files[0].seek(0)
        actions = [(os.POSIX_SPAWN_DUP2, file.fileno(), at) for at, file in enumerate(self.files)]
        process = os.posix_spawn(self.path, [self.path, *words], {**self.environment, **(environment or {})}, file_actions=actions)
        ended = os.pidfd_open(process)
        poll = select.poll()
        poll.register(ended, select.POLLIN)
        in_time = poll.poll(MOST_SECONDS * 1000)
        os.close(ended)
        if not in_time:
            os.kill(process, signal.SIGKILL)
        status = os.waitstatus_to_exitcode(os.waitpid(process, 0)[1])
        written = [os.pread(file.fileno(), os.fstat(file.fileno()).st_size, 0).decode("latin-1") for file in self.files[1:]]
        return (status if in_time else None), *written
