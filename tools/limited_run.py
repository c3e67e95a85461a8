"""Runs of a program, one process each, that are spawned fast and end within bounds on time, memory and output."""

import contextlib
import os
import resource
import signal
from time import monotonic
from typing import NamedTuple

MIB = 2 ** 20
MOST_OUTPUT = 64 * MIB


class Run(NamedTuple):
    """The status, below 0 for a signal; what was written; seconds on the clock and of the processor; memory in KiB.

    Memory is the greatest that was resident. A process counts from its spawning on, so it has what its parent had.
    """

    status: int
    output: bytes
    errors: bytes
    seconds: float
    processor: float
    kib: int


class Runner:
    """Runs `program` in the present folder; a run is killed after some seconds, and its address space is bound.

    `address` and `stack` are in KiB; None leaves them as they are.
    """

    def __init__(self, program, seconds=60.0, address=None, stack=None):
        self.program, self.seconds = os.path.abspath(program), seconds
        bounds = [(resource.RLIMIT_AS, address), (resource.RLIMIT_STACK, stack)]
        self.limits = [(kind, kib * 1024) for kind, kib in bounds if kib]
        self.streams = [os.open(os.devnull, os.O_RDONLY), os.memfd_create("output"), os.memfd_create("errors")]
        self.actions = [(os.POSIX_SPAWN_DUP2, stream, at) for at, stream in enumerate(self.streams)]
        self.process = None
        signal.signal(signal.SIGALRM, self.stop)
        for kind, most in [(resource.RLIMIT_CORE, 0), (resource.RLIMIT_FSIZE, MOST_OUTPUT)]:
            resource.setrlimit(kind, (most, resource.getrlimit(kind)[1]))

    def stop(self, *_):
        if self.process is not None:
            os.kill(self.process, signal.SIGKILL)

    def run(self, words):
        for stream in self.streams[1:]:
            os.ftruncate(stream, 0)
            os.lseek(stream, 0, os.SEEK_SET)
        begun = monotonic()
        with lowered(self.limits):
            process = os.posix_spawn(self.program, [self.program, *words], {}, file_actions=self.actions)
        self.process = process
        signal.setitimer(signal.ITIMER_REAL, self.seconds)
        _, ended, used = os.wait4(process, 0)
        self.process = None
        signal.setitimer(signal.ITIMER_REAL, 0)
        seconds = monotonic() - begun
        output, errors = (os.pread(stream, os.fstat(stream).st_size, 0) for stream in self.streams[1:])
        processor = used.ru_utime + used.ru_stime
        return Run(os.waitstatus_to_exitcode(ended), output, errors, seconds, processor, used.ru_maxrss)


@contextlib.contextmanager
def lowered(limits):
    """This process's own limits for a while: what it spawns keeps them, and has them from its beginning."""
    before = [(kind, resource.getrlimit(kind)) for kind, _ in limits]
    try:
        for kind, most in limits:
            resource.setrlimit(kind, (most, resource.getrlimit(kind)[1]))
        yield
    finally:
        for kind, both in before:
            resource.setrlimit(kind, both)
