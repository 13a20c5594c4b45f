"""Runs of the program on a terminal."""
import fcntl
import os
import pty
import struct
import termios
import tty
from concurrent.futures import ThreadPoolExecutor

# The columns and rows of the terminal.
SIZE = (17, 11)


def all_shown(terminal):
    """All that a terminal was sent, once no program has it open any more."""
    shown = b""
    try:
        while piece := os.read(terminal, 65536):
            shown += piece
    except OSError:  # what Linux answers behind the last byte
        pass
    return shown


def on_terminal(start):
    """What `start` gives, which gets a terminal, and all that was shown there. What it starts may have the terminal open, and nothing else."""
    ours, its = pty.openpty()
    tty.setraw(its)
    fcntl.ioctl(its, termios.TIOCSWINSZ, struct.pack("4H", SIZE[1], SIZE[0], 0, 0))
    try:
        # read meanwhile, since a terminal takes only some thousand bytes that nobody reads
        with ThreadPoolExecutor(1) as pool:
            shown = pool.submit(all_shown, ours)
            try:
                given = start(its)
            finally:
                os.close(its)
            return given, shown.result()
    finally:
        os.close(ours)
