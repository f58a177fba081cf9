"""One guest: a processor in real mode over its window of the arena, with as much of a BIOS as boot code asks for.

INT 13h is not answered here: it goes to the disk service. What the code prints is kept as a screen of 80 columns by 25 lines.
"""
import time

from unicorn import UC_ARCH_X86, UC_HOOK_INSN, UC_HOOK_INTR, UC_MODE_16, UC_PROT_ALL, Uc, UcError
from unicorn.x86_const import *

WORDS = {
    "ax": UC_X86_REG_AX, "bx": UC_X86_REG_BX, "cx": UC_X86_REG_CX, "dx": UC_X86_REG_DX,
    "ds": UC_X86_REG_DS, "si": UC_X86_REG_SI, "es": UC_X86_REG_ES,
}
CARRY, ZERO = 0x001, 0x040
COLUMNS, LINES = 80, 25
BASE_MEMORY = 639  # KiB below 640, as INT 12h says
LONGEST_RUN = 20  # seconds without an INT 13h after which a guest counts as stuck


class Screen:
    """What INT 10h writes: a cursor and lines that scroll. All lines are kept; the screen is those from `top` on."""

    def __init__(self):
        self.lines, self.top, self.row, self.column = [""], 0, 0, 0

    def put(self, char, advance=True):
        line = self.lines[self.row].ljust(self.column)
        self.lines[self.row] = line[: self.column] + char + line[self.column + 1 :]
        if advance:
            self.column += 1
            if self.column == COLUMNS:
                self.move(self.row + 1, 0)

    def move(self, row, column):
        self.row, self.column = row, column
        while len(self.lines) <= row:
            self.lines.append("")
        self.top = max(self.top, row - LINES + 1)

    def clear(self):
        self.top = len(self.lines)
        self.move(self.top, 0)

    def teletype(self, code):
        if code == 13:
            self.column = 0
        elif code == 10:
            self.move(self.row + 1, self.column)
        elif code == 8:
            self.column = max(0, self.column - 1)
        elif code >= 32:
            self.put(chr(code) if code < 127 else "?")

    def text(self):
        return [line.rstrip() for line in self.lines if line.strip()]


class Guest:
    """A guest runs until it calls INT 13h, waits for a key, or stops. `asks` then says which: "disk", "key" or a reason in words."""

    def __init__(self, number, window, length, drive):
        self.number, self.length, self.drive, self.screen = number, length, drive, Screen()
        self.asks, self.ticks, self.port61, self.seen = None, 0, 0, 0
        self.cpu = Uc(UC_ARCH_X86, UC_MODE_16)
        self.cpu.mem_map_ptr(0, length, UC_PROT_ALL, window)
        self.cpu.hook_add(UC_HOOK_INTR, self.interrupt)
        self.cpu.hook_add(UC_HOOK_INSN, self.port_in, arg1=UC_X86_INS_IN)
        self.cpu.hook_add(UC_HOOK_INSN, self.port_out, arg1=UC_X86_INS_OUT)
        self.bios_data()

    def bios_data(self):
        """Vector n points at `INT n; RETF 2`, since some code calls through the vectors; the data area is what old code looks for."""
        memory = self.cpu
        for number in range(256):
            memory.mem_write(4 * number, (8 * number).to_bytes(2, "little") + b"\x00\xf0")
            memory.mem_write(0xF0000 + 8 * number, bytes([0xCD, number, 0xCA, 0x02, 0x00]))
        memory.mem_write(0x413, BASE_MEMORY.to_bytes(2, "little"))
        memory.mem_write(0x449, b"\x03" + COLUMNS.to_bytes(2, "little"))
        memory.mem_write(0x475, b"\x01")
        memory.mem_write(0x484, bytes([LINES - 1]))

    def start(self, block):
        """The first block of the boot drive at 0000:7C00, DL the drive: as a BIOS leaves it."""
        self.cpu.mem_write(0x7C00, block)
        for register in (UC_X86_REG_CS, UC_X86_REG_DS, UC_X86_REG_ES, UC_X86_REG_SS):
            self.cpu.reg_write(register, 0)
        self.cpu.reg_write(UC_X86_REG_SP, 0x7C00)
        self.cpu.reg_write(UC_X86_REG_IP, 0x7C00)
        self.cpu.reg_write(UC_X86_REG_DX, self.drive)

    def run(self):
        self.asks = None
        at = 16 * self.cpu.reg_read(UC_X86_REG_CS) + self.cpu.reg_read(UC_X86_REG_EIP)
        began = time.monotonic()
        try:
            self.cpu.emu_start(at, 1 << 40, timeout=LONGEST_RUN * 1000000)
        except UcError as error:
            self.asks = self.asks or f"stopped by the processor: {error}"
        if self.asks is None:
            stuck = time.monotonic() - began >= LONGEST_RUN
            self.asks = "ran on without the disk" if stuck else "halted"

    # ---- registers

    def words(self):
        return {name: self.cpu.reg_read(register) for name, register in WORDS.items()}

    def flag(self, bit, on):
        flags = self.cpu.reg_read(UC_X86_REG_EFLAGS)
        self.cpu.reg_write(UC_X86_REG_EFLAGS, flags | bit if on else flags & ~bit)

    def written(self, place, length):
        """The service wrote these bytes of the window: code that the processor knows from there is forgotten."""
        self.cpu.ctl_remove_cache(place, place + length)

    def answer(self, words, carry):
        for name, value in words.items():
            self.cpu.reg_write(WORDS[name], value)
        self.flag(CARRY, carry)

    # ---- interrupts

    def stop(self, reason):
        self.asks = reason
        self.cpu.emu_stop()

    def interrupt(self, cpu, number, _):
        self.ticks += 1
        cpu.mem_write(0x46C, (self.ticks // 16).to_bytes(4, "little"))
        if cpu.reg_read(UC_X86_REG_CR0) & 1:
            self.stop(f"exception {number} in protected mode")
            return
        handler = getattr(self, f"int_{number:02x}", None)
        if handler:
            handler(cpu.reg_read(UC_X86_REG_AH), cpu.reg_read(UC_X86_REG_AL))
        elif number < 8:
            self.stop(f"exception {number}")

    def int_10(self, ah, al):
        cpu, screen = self.cpu, self.screen
        if ah == 0x0E:
            screen.teletype(al)
        elif ah == 0x00 or (ah in (0x06, 0x07) and al == 0) or (ah == 0x09 and cpu.reg_read(UC_X86_REG_CX) >= COLUMNS * LINES):
            screen.clear()
        elif ah in (0x09, 0x0A):
            screen.put(chr(al) if 32 <= al < 127 else " ", advance=False)
        elif ah == 0x02:
            screen.move(screen.top + cpu.reg_read(UC_X86_REG_DH), cpu.reg_read(UC_X86_REG_DL))
        elif ah == 0x03:
            cpu.reg_write(UC_X86_REG_DH, screen.row - screen.top)
            cpu.reg_write(UC_X86_REG_DL, screen.column)
            cpu.reg_write(UC_X86_REG_CX, 0x0607)
        elif ah == 0x0F:
            cpu.reg_write(UC_X86_REG_AX, COLUMNS << 8 | 3)
            cpu.reg_write(UC_X86_REG_BH, 0)

    def int_11(self, ah, al):
        self.cpu.reg_write(UC_X86_REG_AX, 0x0020)

    def int_12(self, ah, al):
        self.cpu.reg_write(UC_X86_REG_AX, BASE_MEMORY)

    def int_13(self, ah, al):
        self.stop("disk")

    def int_15(self, ah, al):
        extended = (self.length - 0x100000) // 1024
        if ah == 0x88:
            self.cpu.reg_write(UC_X86_REG_AX, extended)
            self.flag(CARRY, False)
        elif (ah, al) == (0xE8, 0x20):
            self.memory_map()
        elif ah == 0x24:
            self.cpu.reg_write(UC_X86_REG_AH, 0)
            self.flag(CARRY, False)
        else:
            self.cpu.reg_write(UC_X86_REG_AH, 0x86)
            self.flag(CARRY, True)

    def memory_map(self):
        ranges = [(0, BASE_MEMORY * 1024, 1), (0xF0000, 0x10000, 2), (0x100000, self.length - 0x100000, 1)]
        index = self.cpu.reg_read(UC_X86_REG_EBX)
        if index >= len(ranges):
            self.flag(CARRY, True)
            return
        base, size, kind = ranges[index]
        place = 16 * self.cpu.reg_read(UC_X86_REG_ES) + self.cpu.reg_read(UC_X86_REG_DI)
        self.cpu.mem_write(place, base.to_bytes(8, "little") + size.to_bytes(8, "little") + kind.to_bytes(4, "little"))
        self.cpu.reg_write(UC_X86_REG_EAX, 0x534D4150)
        self.cpu.reg_write(UC_X86_REG_ECX, 20)
        self.cpu.reg_write(UC_X86_REG_EBX, (index + 1) % len(ranges))
        self.flag(CARRY, False)

    def int_16(self, ah, al):
        if ah in (0x00, 0x10):
            self.stop("key")
        elif ah in (0x01, 0x11):
            # boot code that polls for a key polls for ever: after a while it counts as waiting for one
            self.seen += 1
            if self.seen > 2000:
                self.stop("key")
            self.flag(ZERO, True)
        else:
            self.cpu.reg_write(UC_X86_REG_AL, 0)

    def int_18(self, ah, al):
        self.stop("INT 18h: no disk that boots")

    def int_19(self, ah, al):
        self.stop("INT 19h: boots again")

    def int_1a(self, ah, al):
        if ah == 0x00:
            self.cpu.reg_write(UC_X86_REG_CX, self.ticks >> 16)
            self.cpu.reg_write(UC_X86_REG_DX, self.ticks & 0xFFFF)
            self.cpu.reg_write(UC_X86_REG_AL, 0)
        elif ah in (0x02, 0x04):
            self.cpu.reg_write(UC_X86_REG_CX, 0x2026 if ah == 4 else 0x1200)
            self.cpu.reg_write(UC_X86_REG_DX, 0x1116 if ah == 4 else 0)
            self.flag(CARRY, False)
        else:
            self.flag(CARRY, True)

    # ---- ports: the timer's gate goes up and down, the keyboard is empty, gate A20 is open

    def port_in(self, cpu, port, size, _):
        if port == 0x61:
            self.port61 ^= 0x30
            return self.port61
        return {0x60: 0, 0x64: 0, 0x92: 2}.get(port, (1 << 8 * size) - 1)

    def port_out(self, cpu, port, size, value, _):
        pass
