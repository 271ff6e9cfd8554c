"""The start of a tool. Import it before all other modules: from then on each standard stream is open, and an interrupt, running
out of memory and anything unexpected end in one line on standard error and an exit status, also during the other imports.

A stream that was closed when the tool started stays unusable: reading or writing it still fails, under its own name.
"""

from __future__ import annotations

import errno
import os
import sys

# the exit statuses: the database or a line was rejected; bad usage; files or streams can't be read or written; out of memory
REJECTED, BAD_WORDS, BAD_FILES, NO_MEMORY = 1, 2, 3, 4
INTERRUPTED = 130

TOOL = os.path.basename(sys.argv[0])
# (built now: later there may be no memory for it)
OUT_OF_MEMORY = f"{TOOL}: out of memory\n".encode(errors="replace")
# the descriptor for a tool's own lines
error_output = 2


class Fault(Exception):
    """An error that ends a tool: the line for standard error, and the exit status."""

    def __init__(self, text: str, status: int) -> None:
        super().__init__(text)
        self.status = status


def report(text: str) -> None:
    """Writes a line to standard error; does nothing if it can't be written."""
    write_error(f"{TOOL}: {text}\n".encode("utf-8", "backslashreplace"))


def write_error(line: bytes) -> None:
    try:
        while line:
            line = line[os.write(error_output, line) :]
    except OSError:
        pass


def hide_others() -> None:
    """Hides what others, such as libraries and child processes, write to standard error. The tool's own lines still go there."""
    global error_output
    error_output = os.dup(2)
    null = os.open(os.devnull, os.O_WRONLY)
    os.dup2(null, 2)
    os.close(null)


def lacks_memory(error: BaseException | None) -> bool:
    """Whether an error means out of memory, or was caused by one that does. Threads, processes and libraries that run out of
    memory as they start raise errors of their own."""
    if error is None or isinstance(error, (Fault, KeyboardInterrupt)):
        return False
    if isinstance(error, MemoryError) or isinstance(error, OSError) and error.errno == errno.ENOMEM:
        return True
    text = str(error)
    if isinstance(error, RuntimeError) and "can't start new thread" in text:
        return True
    if isinstance(error, ImportError) and ("failed to map segment" in text or "allocate memory" in text):
        return True
    return lacks_memory(error.__cause__ or error.__context__)


def line_for(error: BaseException) -> tuple[str, int]:
    """The line and the exit status for an exception. If the reader of the output is gone, there is no line."""
    if isinstance(error, Fault):
        return str(error), error.status
    if isinstance(error, KeyboardInterrupt):
        return "interrupted", INTERRUPTED
    if isinstance(error, BrokenPipeError) and not error.filename:
        return "", BAD_FILES
    if isinstance(error, OSError):
        return f"{error.filename or 'standard output'}: {error.strerror or error}", BAD_FILES
    text = str(error).split("\n", 1)[0]
    return f"unexpected {type(error).__name__}" + (f": {text}" if text else ""), BAD_FILES


def end_by(error: BaseException) -> None:
    """Ends the process because of an exception; output that was written so far is flushed."""
    ignore_interrupts()
    is_memory = lacks_memory(error)
    # (the frames that it passed through may hold all the memory)
    error.__traceback__ = error.__context__ = error.__cause__ = None
    if is_memory:
        write_error(OUT_OF_MEMORY)
        status = NO_MEMORY
    else:
        line, status = line_for(error)
        if line:
            report(line)
    try:
        sys.stdout.flush()
    except (OSError, ValueError, MemoryError):
        pass
    os._exit(status)


def end(status: int) -> None:
    """Flushes the output and ends the process, without Python's own shutdown, which an interrupt could still break."""
    sys.stdout.flush()
    ignore_interrupts()
    os._exit(status)


def ignore_interrupts() -> None:
    signal.signal(signal.SIGINT, signal.SIG_IGN)
    signal.signal(signal.SIGALRM, signal.SIG_IGN)


def interrupt_again(unraisable: "sys.UnraisableHookArgs") -> None:
    """Repeats an interrupt a moment later if it arrived when nothing can be raised, as in a destructor."""
    if isinstance(unraisable.exc_value, KeyboardInterrupt):
        signal.setitimer(signal.ITIMER_REAL, 0.01)


def fill_streams() -> None:
    """Opens /dev/null for each closed standard stream, so that no other file gets its descriptor. Input is opened for writing only,
    and output for reading only: using them still fails. Standard error is opened for writing, so that its lines are dropped."""
    for number, mode in ((0, os.O_WRONLY), (1, os.O_RDONLY), (2, os.O_WRONLY)):
        try:
            os.fstat(number)
        except OSError:
            # (this takes the lowest free descriptor, which is `number`)
            os.set_inheritable(os.open(os.devnull, mode), True)
    if sys.stdin is None:
        sys.stdin = open(0, closefd=False)
    if sys.stdout is None:
        sys.stdout = open(1, "w", closefd=False)
    if sys.stderr is None:
        sys.stderr = open(2, "w", closefd=False)


sys.excepthook = lambda kind, error, trace: end_by(error)

import signal  # noqa: E402

sys.unraisablehook = interrupt_again
signal.signal(signal.SIGALRM, signal.default_int_handler)
fill_streams()
# (an interrupt that arrived earlier was blocked until now)
signal.pthread_sigmask(signal.SIG_UNBLOCK, {signal.SIGINT})
