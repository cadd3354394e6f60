"""Stops one thread of a program, as a debugger does, while its others go on.

Linux alone. It wants the right to trace: of a program that this one started, or as root.
"""

import contextlib
import ctypes
import os
import time

ATTACH, DETACH = 16, 17
ANY_CHILD = 0x40000000  # __WALL: threads too
LIBC = ctypes.CDLL(None, use_errno=True)
LIBC.ptrace.argtypes = [ctypes.c_long, ctypes.c_long, ctypes.c_void_p, ctypes.c_void_p]
LIBC.ptrace.restype = ctypes.c_long


def threads_of(pid):
    """The threads of a process, the one that was started first at the front."""
    return sorted(int(name) for name in os.listdir(f"/proc/{pid}/task"))


def stop_thread(thread):
    """Stops a thread until its process ends. OSError where that isn't allowed."""
    if LIBC.ptrace(ATTACH, thread, None, None):
        code = ctypes.get_errno()
        raise OSError(code, os.strerror(code))
    os.waitpid(thread, ANY_CHILD)


def seconds_to_end(process, stopped, most):
    """The seconds until a process with a stopped thread ends by itself. None where it doesn't in time; then the thread
    goes on. The end of the process is known once the thread's is."""
    start = time.monotonic()
    while time.monotonic() - start < most:
        with contextlib.suppress(ChildProcessError):
            if os.waitpid(stopped, os.WNOHANG | ANY_CHILD)[0]:
                took = time.monotonic() - start
                process.wait(timeout=5)
                return took
        time.sleep(0.05)
    LIBC.ptrace(DETACH, stopped, None, None)
    return None
