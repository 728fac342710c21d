#!/usr/bin/env python3
"""Runs PROGRAM make on a terminal, gives it a text and the end of the input once, and fails where it doesn't end."""
import os
import pty
import signal
import sys

SECONDS = 20


def main(program):
    child, terminal = pty.fork()
    if child == 0:
        with open(os.devnull, "wb") as out:
            os.dup2(out.fileno(), 1)
        os.execv(program, [program, "make"])
    signal.signal(signal.SIGALRM, lambda *_: os.kill(child, signal.SIGKILL))
    signal.alarm(SECONDS)
    os.write(terminal, b"class A\n\x04")
    _, status = os.waitpid(child, 0)
    return os.waitstatus_to_exitcode(status)


if __name__ == "__main__":
    sys.exit(main(sys.argv[1]) != 0)
