"""The disk service as a monitor uses it: one desk, one arena with a window for each guest, one store that holds all disks."""
import ctypes
import mmap

DONE, NOTHING_YET, NOT_FINISHED = 0, 256, 22
REGISTERS = ("ax", "bx", "cx", "dx", "ds", "si", "es")
BLOCK = 512


def record(disk):
    """The drive's record of 68 bytes: document 01, "The drive table"."""
    cylinders, heads, sectors = disk["geometry"]
    numbers = [(68, 2), (1, 2), (cylinders, 4), (heads, 4), (sectors, 4), (disk["blocks"], 8), (disk["first"], 8), (2, 2)]
    numbers += [(cylinders, 2), (heads, 2), (sectors, 1), (0, 1)]
    fixed = b"".join(value.to_bytes(size, "little") for value, size in numbers)
    return fixed + b"PCI\0" + b"ATA".ljust(8, b"\0") + bytes([0, 31, 1, 0, 0, 0, 0, 0]) + bytes([disk["drive"] & 1]) + bytes(7)


def geometry(blocks):
    """Sixteen heads of 63 sectors, and as many whole cylinders as fit."""
    return (min(1024, blocks // (16 * 63)), 16, 63)


class Service:
    def __init__(self, library, images, window):
        self.calls = ctypes.CDLL(library)
        self.calls.edd_desk_size.restype = ctypes.c_uint64
        self.disks, store = [], b""
        for number, (name, image) in enumerate(images):
            blocks = len(image) // BLOCK
            self.disks.append(
                {"name": name, "drive": 0x80 + number, "blocks": blocks, "first": len(store) // BLOCK, "geometry": geometry(blocks)}
            )
            store += image
        self.window, self.store_length = window, len(store)
        self.arena_map = mmap.mmap(-1, 8 * window)
        self.arena = (ctypes.c_uint8 * (8 * window)).from_buffer(self.arena_map)
        self.store = (ctypes.c_uint8 * len(store)).from_buffer_copy(store)
        size = self.calls.edd_desk_size()
        self.desk = (ctypes.c_uint8 * size)()
        self.open()

    def slices(self, *buffers):
        arguments = []
        for buffer in buffers:
            arguments += [buffer, ctypes.c_size_t(len(buffer))]
        return arguments

    def open(self):
        table = b"".join(record(disk) for disk in self.disks) + b"\x04\0\0\0"
        place = ctypes.c_uint64()
        lengths = [ctypes.c_uint64(len(self.arena)), ctypes.c_uint64(len(self.store))]
        answer = self.calls.edd_open(*self.slices(self.desk, (ctypes.c_uint8 * len(table)).from_buffer_copy(table)), *lengths, ctypes.byref(place))
        if answer != DONE:
            raise SystemExit(f"edd_open answers {answer} at {place.value}")

    def window_address(self, guest):
        return ctypes.addressof(self.arena) + guest * self.window

    def post(self, guest, words):
        """The registers of an answer at once and its carry, or None where the request waits."""
        cells = {name: ctypes.c_uint16(words[name]) for name in REGISTERS}
        carry = ctypes.c_uint16()
        answer = self.calls.edd_post(
            *self.slices(self.desk, self.arena, self.store), ctypes.c_uint64(guest),
            *(ctypes.byref(cells[name]) for name in ("ax", "bx", "cx", "dx")), *(cells[name] for name in ("ds", "si", "es")),
            ctypes.byref(carry),
        )
        if answer == NOTHING_YET:
            return None
        if answer != DONE:
            raise SystemExit(f"edd_post answers {answer} to guest {guest}")
        return {name: cells[name].value for name in ("ax", "bx", "cx", "dx")}, carry.value

    def turn(self):
        """Whom the turn served and the blocks that it moved, or None where nobody waits."""
        guest, moved = ctypes.c_uint64(), ctypes.c_uint64()
        answer = self.calls.edd_turn(*self.slices(self.desk, self.arena, self.store), ctypes.byref(guest), ctypes.byref(moved))
        if answer == NOTHING_YET:
            return None
        if answer != DONE:
            raise SystemExit(f"edd_turn answers {answer}")
        return guest.value, moved.value

    def collect(self, guest):
        """The finished registers and their carry, or None where the request still waits."""
        cells = [ctypes.c_uint16() for _ in REGISTERS]
        carry = ctypes.c_uint16()
        answer = self.calls.edd_collect(
            *self.slices(self.desk), ctypes.c_uint64(guest), *(ctypes.byref(cell) for cell in cells), ctypes.byref(carry)
        )
        if answer == NOT_FINISHED:
            return None
        if answer != DONE:
            raise SystemExit(f"edd_collect answers {answer} to guest {guest}")
        return {name: cell.value for name, cell in zip(REGISTERS, cells)}, carry.value
