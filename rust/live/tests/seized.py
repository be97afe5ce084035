"""For tests: makes system calls in a running lldpa-live, as an attacker who took it over could.

This is for x86-64: it steps the main thread over a `syscall` instruction (ptrace(2))."""

import ctypes
import os
import platform
import unittest
from typing import Optional

from running_live import Live

GETREGS, SETREGS, SINGLESTEP, DETACH, SEIZE, INTERRUPT = 12, 13, 9, 17, 0x4206, 0x4207
WALL = 0x40000000
ROOM = 8192  # octets below the stack, for what arguments point to
NAMES = ("r15 r14 r13 r12 rbp rbx r11 r10 r9 r8 rax rcx rdx rsi rdi orig_rax rip cs eflags rsp ss "
         "fs_base gs_base ds es fs gs").split()
can_seize = unittest.skipUnless(platform.machine() == "x86_64", "x86-64: it writes registers")


class Registers(ctypes.Structure):
    """struct user_regs_struct (sys/user.h)."""
    _fields_ = [(name, ctypes.c_ulonglong) for name in NAMES]


class Seized:
    """The main thread of an lldpa-live, which waits in a system call."""

    def __init__(self, live: Live) -> None:
        self.pid = live.process.pid
        self.libc = ctypes.CDLL(None, use_errno=True)
        self.libc.ptrace.argtypes = [ctypes.c_long, ctypes.c_long, ctypes.c_void_p, ctypes.c_void_p]
        self.libc.ptrace.restype = ctypes.c_long
        self.trace(SEIZE)
        self.trace(INTERRUPT)
        os.waitpid(self.pid, WALL)
        self.before = self.registers()
        self.place = self.before.rsp - ROOM

    def trace(self, what: int, data: "Optional[ctypes._Pointer[Registers]]" = None) -> None:
        if self.libc.ptrace(what, self.pid, None, data) < 0:
            raise OSError(ctypes.get_errno(), "ptrace")

    def registers(self) -> Registers:
        found = Registers()
        self.trace(GETREGS, ctypes.pointer(found))
        return found

    def put(self, octets: bytes) -> int:
        """Writes octets into the memory of lldpa-live, and returns their address."""
        place, self.place = self.place, self.place + len(octets) + 15 & ~15
        with open(f"/proc/{self.pid}/mem", "r+b", buffering=0) as memory:
            memory.seek(place)
            memory.write(octets)
        return place

    def call(self, number: int, *arguments: int) -> Optional[int]:
        """Makes a system call. Returns its result, or None if the kernel has ended lldpa-live."""
        made = self.registers()
        for name in NAMES:
            setattr(made, name, getattr(self.before, name))
        made.rip, made.rax, made.orig_rax = self.before.rip - 2, number, 2 ** 64 - 1
        for name, value in zip(("rdi", "rsi", "rdx", "r10", "r8", "r9"), arguments):
            setattr(made, name, value % 2 ** 64)
        self.trace(SETREGS, ctypes.pointer(made))
        self.trace(SINGLESTEP)
        _, status = os.waitpid(self.pid, WALL)
        if not os.WIFSTOPPED(status):
            return None
        result: int = self.registers().rax
        return result - 2 ** 64 if result >= 2 ** 63 else result

    def release(self) -> None:
        """Lets lldpa-live go on as if nothing had been."""
        self.trace(SETREGS, ctypes.pointer(self.before))
        self.trace(DETACH)
