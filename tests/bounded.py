#!/usr/bin/env python3
"""Runs a program within bounds, so that one that never ends, prints without end or takes memory without end is a failure soon.

    tests/bounded.py SECONDS BYTES PROGRAM [WORD ..]

BYTES are of standard output and of standard error, each; both are printed once the program has ended. Of memory it gets 1 GB. Ends with the
program's status, or with 124 where it met the bound of time or output, and says so. Where memory is refused, how a program ends is its own affair.
"""
import os
import resource
import signal
import subprocess
import sys
import tempfile
import time

MEMORY = 1 << 30


class Run:
    """A program that runs from one file to another. What it prints is kept in files, so that the system holds it to the bound."""

    def __init__(self, command, source, target, seconds, most):
        self.command, self.target, self.seconds, self.most = command, target, seconds, most
        self.errors = tempfile.TemporaryFile()
        self.until = time.monotonic() + seconds
        try:
            self.process = subprocess.Popen(command, stdin=source, stdout=target, stderr=self.errors)
        except OSError:
            self.errors.close()
            raise
        # Set while it runs already: what it does before is little. The bound of processor time is for when this process is gone, and nobody waits.
        bounds = {resource.RLIMIT_AS: MEMORY, resource.RLIMIT_FSIZE: most, resource.RLIMIT_CORE: 0, resource.RLIMIT_CPU: int(seconds) + 2}
        for bound, value in bounds.items():
            hard = resource.prlimit(self.process.pid, bound)[1]
            value = value if hard == resource.RLIM_INFINITY else min(value, hard)
            resource.prlimit(self.process.pid, bound, (value, value))

    def end(self):
        """Waits for its end. Its status and its standard error, or 124 and the bound that it met."""
        in_time = True
        try:
            self.process.wait(max(self.until - time.monotonic(), 0))
        except subprocess.TimeoutExpired:
            in_time = False
        finally:
            self.process.kill()
            self.process.wait()
        with self.errors:
            if not in_time:
                return 124, f"it has not ended within {self.seconds:.0f} s"
            if max(os.fstat(file.fileno()).st_size for file in (self.target, self.errors)) >= self.most:
                return 124, f"it prints more than {self.most} bytes"
            self.errors.seek(0)
            return self.process.returncode, self.errors.read().decode(errors="replace")


def completed(command, data, seconds, most):
    """A program's run on these bytes, as subprocess.run has it but for the bounds."""
    with tempfile.TemporaryFile() as source, tempfile.TemporaryFile() as target:
        source.write(data)
        source.seek(0)
        status, said = Run(command, source, target, seconds, most).end()
        target.seek(0)
        return subprocess.CompletedProcess(command, status, target.read(), said.encode())


def main():
    if len(sys.argv) < 4:
        sys.exit(__doc__)
    seconds, most, command = float(sys.argv[1]), int(sys.argv[2]), sys.argv[3:]
    # Ended by `timeout`, this ends the program too.
    signal.signal(signal.SIGTERM, lambda *_: sys.exit(124))
    with tempfile.TemporaryFile() as target:
        try:
            run = Run(command, sys.stdin, target, seconds, most)
        except OSError as error:
            sys.exit(f"{command[0]}: {error.strerror}")
        status, said = run.end()
        target.seek(0)
        sys.stdout.buffer.write(target.read())
    if status == 124:
        said = f"{command[0]}: {said}\n"
    sys.stderr.write(said)
    # A signal's number, as the shell has it.
    sys.exit(status if status >= 0 else 128 - status)


if __name__ == "__main__":
    main()
