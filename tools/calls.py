"""Runs a program, and then writes which files it changed, in the order of its system calls.

    python3 tools/calls.py PROGRAM WORDS..

Rows of transcripts call it where the order counts and nothing else shows it: what is made to last (`sync`) before it takes a name.
A line is a call and the last part of each path; writes that follow each other to one file are one line, whatever it takes. Standard
output and error, and reads, are left out. Its status is the program's. It traces the program by ptrace, as strace does, on x86-64.
"""
import ctypes
import os
import signal
import struct
import sys

TRACE_ME, GET_REGISTERS, GO_ON, SET_OPTIONS, MARK_CALLS = 0, 12, 24, 0x4200, 1
# The places of registers in what the kernel gives: the number of the call, its result, what it takes.
CALL, RESULT, TAKEN = 15, 10, (14, 13, 12, 7)
REGISTERS = "27Q"
# By number, the name of a call and which of what it takes are a path, or a file that is open.
OPENS = {2: (0, 1), 257: (1, 2), 85: (0, None)}
ON_PATHS = {
    76: ("cut", 0),
    82: ("rename", 0, 1),
    86: ("link", 0, 1),
    87: ("remove", 0),
    88: ("link", 0, 1),
    90: ("mode", 0),
    92: ("owner", 0),
    94: ("owner", 0),
    260: ("owner", 1),
    263: ("remove", 1),
    264: ("rename", 1, 3),
    265: ("link", 1, 3),
    266: ("link", 0, 2),
    268: ("mode", 1),
    316: ("rename", 1, 3),
}
ON_FILES = {1: "write", 18: "write", 20: "write", 40: "write", 74: "sync", 75: "sync", 77: "cut", 91: "mode", 93: "owner"}
COPY_RANGE, CLOSE, CREATES = 326, 3, os.O_CREAT


class Calls:
    """The calls of a process that change files, as lines."""

    def __init__(self, process):
        self.process, self.names, self.lines = process, {}, []

    def path(self, at):
        """The last part of the path that stands there."""
        with open(f"/proc/{self.process}/mem", "rb") as memory:
            memory.seek(at)
            text = b""
            while b"\0" not in text:
                text += memory.read(1)
        return os.path.basename(text[:-1]).decode(errors="replace")

    def add(self, name, *files):
        line = " ".join((name, *files))
        if name != "write" or self.lines[-1:] != [line]:
            self.lines.append(line)

    def note(self, call, taken, result):
        """Takes note of a call that came back."""
        if result < 0:
            return
        if call in OPENS:
            at, how = OPENS[call]
            self.names[result] = self.path(taken[at])
            if how is None or taken[how] & CREATES:
                self.add("open", self.names[result])
        elif call in ON_PATHS:
            name, *places = ON_PATHS[call]
            self.add(name, *(self.path(taken[it]) for it in places))
        elif call in ON_FILES and taken[0] in self.names:
            self.add(ON_FILES[call], self.names[taken[0]])
        elif call == COPY_RANGE:
            self.add("write", self.names.get(taken[2], "?"))
        elif call == CLOSE:
            self.names.pop(taken[0], None)


def tracer():
    function = ctypes.CDLL(None, use_errno=True).ptrace
    function.restype, function.argtypes = ctypes.c_long, (ctypes.c_long, ctypes.c_long, ctypes.c_void_p, ctypes.c_void_p)
    return function


def traced(words):
    """The lines of a run, and its status."""
    ptrace, process = tracer(), os.fork()
    if process == 0:
        ptrace(TRACE_ME, 0, None, None)
        try:
            os.execvp(words[0], words)
        finally:
            os._exit(127)
    calls, registers, begun = Calls(process), ctypes.create_string_buffer(struct.calcsize(REGISTERS)), None
    _, status = os.waitpid(process, 0)
    ptrace(SET_OPTIONS, process, None, MARK_CALLS)
    while os.WIFSTOPPED(status):
        number = os.WSTOPSIG(status)
        if number == signal.SIGTRAP | 0x80:
            ptrace(GET_REGISTERS, process, None, ctypes.addressof(registers))
            its = struct.unpack(REGISTERS, registers)
            if begun is None:
                begun = its[CALL], [its[it] for it in TAKEN]
            else:
                calls.note(*begun, ctypes.c_long(its[RESULT]).value)
                begun = None
        passed = 0 if number in (signal.SIGTRAP, signal.SIGTRAP | 0x80) else number
        if ptrace(GO_ON, process, None, passed) != 0:
            raise OSError(ctypes.get_errno(), f"{words[0]} can't be traced")
        _, status = os.waitpid(process, 0)
    return calls.lines, os.waitstatus_to_exitcode(status)


if __name__ == "__main__":
    lines, status = traced(sys.argv[1:])
    print("".join(f"{it}\n" for it in lines), end="")
    sys.exit(status)
