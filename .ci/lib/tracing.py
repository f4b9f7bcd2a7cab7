"""A program under trace: stopped at each of its system calls, and what it writes to files and syncs."""
import ctypes
import os
import signal

LIBC = ctypes.CDLL(None, use_errno=True)
TRACE_ME, GET_REGISTERS, CONTINUE_TO_CALL = 0, 12, 24
SET_OPTIONS, KILL_WITH_TRACER, MARK_CALLS = 0x4200, 0x00100000, 1
REGISTERS = "r15 r14 r13 r12 rbp rbx r11 r10 r9 r8 rax rcx rdx rsi rdi orig_rax rip cs eflags rsp ss fs_base gs_base ds es fs gs".split()
CALL_STOP = signal.SIGTRAP | 0x80
WRITE, PWRITE = 1, 18
SYNCS = (74, 75)


class Untraced(Exception):
    """This machine lets no process trace another."""


class Registers(ctypes.Structure):
    _fields_ = [(name, ctypes.c_ulonglong) for name in REGISTERS]


def ptrace(request, pid, data=None):
    LIBC.ptrace.argtypes = [ctypes.c_long, ctypes.c_long, ctypes.c_void_p, ctypes.c_void_p]
    return LIBC.ptrace(request, pid, None, data)


def begin(words, folder, output=os.devnull):
    """Starts a program that is stopped at its first instruction, with nothing to read and its lines in a file."""
    pid = os.fork()
    if pid == 0:
        try:
            os.chdir(folder)
            null = os.open(os.devnull, os.O_RDWR)
            lines = os.open(output, os.O_WRONLY | os.O_CREAT | os.O_TRUNC)
            for number, file in enumerate((null, lines, null)):
                os.dup2(file, number)
            ptrace(TRACE_ME, 0)
            os.execv(words[0], words)
        finally:
            os._exit(127)  # else there would be a second one of this process
    _, status = os.waitpid(pid, 0)
    if not os.WIFSTOPPED(status):
        raise Untraced
    ptrace(SET_OPTIONS, pid, KILL_WITH_TRACER | MARK_CALLS)
    return pid


def go_on(pid):
    """Goes on to where the next system call is entered or left. The status of the program where it ended before."""
    signaled = 0
    while True:
        ptrace(CONTINUE_TO_CALL, pid, signaled)
        _, status = os.waitpid(pid, 0)
        if os.WIFEXITED(status) or os.WIFSIGNALED(status):
            return status
        if os.WSTOPSIG(status) == CALL_STOP:
            return None
        signaled = os.WSTOPSIG(status)


def run_stopped(words, folder, calls):
    """Runs until so many system calls were entered or left, and kills the program there. None where that came before its end."""
    pid = begin(words, folder)
    for _ in range(calls):
        status = go_on(pid)
        if status is not None:
            return status
    os.kill(pid, signal.SIGKILL)
    os.waitpid(pid, 0)
    return None


def event(pid, folder):
    """What the system call that was just left did to a file of the folder: a write as name, place and bytes, a sync as the name alone."""
    registers = Registers()
    ptrace(GET_REGISTERS, pid, ctypes.addressof(registers))
    call, count = registers.orig_rax, ctypes.c_longlong(registers.rax).value
    if call not in (WRITE, PWRITE, *SYNCS) or count < 0:
        return None
    path = os.readlink(f"/proc/{pid}/fd/{registers.rdi}")
    if os.path.dirname(path) != os.path.realpath(folder):
        return None
    if call in SYNCS:
        return (os.path.basename(path),)
    with open(f"/proc/{pid}/fdinfo/{registers.rdi}", encoding="utf-8") as file:
        after = int(file.readline().split()[1])
    place = registers.r10 if call == PWRITE else after - count
    with open(path, "rb") as file:
        file.seek(place)
        return os.path.basename(path), place, file.read(count)


def events(words, folder, output=os.devnull):
    """Runs a program to its end. What it wrote to files of the folder and synced, in order, and its exit code."""
    pid, found, is_inside = begin(words, folder, output), [], False
    while True:
        status = go_on(pid)
        if status is not None:
            return found, os.waitstatus_to_exitcode(status)
        is_inside = not is_inside
        seen = None if is_inside else event(pid, folder)
        if seen:
            found.append(seen)
