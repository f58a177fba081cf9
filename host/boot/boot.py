"""boot.py LIBRARY DISK..: boots a guest from each disk, all at once over one desk, and shows what each prints and what it asked of the service.

Guest g boots from drive 80h + g. A guest runs until its boot code calls INT 13h. Its registers are posted; where the request waits, the
other guests run on and the host gives turns, until the guest can collect. It ends when every guest waits for a key or has stopped.
"""
import os
import sys

from guest import Guest
from service import BLOCK, Service

WINDOW = 16 << 20
NAMES = {
    0x00: "reset", 0x02: "read sectors", 0x08: "get parameters", 0x15: "get type", 0x41: "check extensions", 0x42: "extended read",
    0x48: "get result", 0x4B: "CD emulation",
}


class Log:
    """What one guest asked: for each function how often, how often refused, with which counts and to which buffers."""

    def __init__(self):
        self.functions, self.turns, self.blocks = {}, 0, 0

    def ask(self, function):
        return self.functions.setdefault(function, {"calls": 0, "refused": {}, "counts": [], "buffers": []})

    def refuse(self, function, code):
        refused = self.ask(function)["refused"]
        refused[code] = refused.get(code, 0) + 1


def transfer(guest, words):
    """Blocks and buffer of a 02h or 42h, from outside: AL and ES:BX, or words 2, 4 and 6 of the packet."""
    if words["ax"] >> 8 in (0x02, 0x03):
        return words["ax"] & 0xFF, 16 * words["es"] + words["bx"]
    packet = guest.cpu.mem_read(16 * words["ds"] + words["si"], 8)
    word = lambda at: int.from_bytes(packet[at : at + 2], "little")
    return word(2), 16 * word(6) + word(4)


def post(service, guest, log):
    """Posts what the guest asks. Whether its request waits."""
    words = guest.words()
    function = words["ax"] >> 8
    asked = log.ask(function)
    asked["calls"] += 1
    counted = transfer(guest, words) if function in (0x02, 0x03, 0x42, 0x43) else None
    answer = service.post(guest.number, words)
    if answer is None:
        asked["counts"].append(counted[0])
        asked["buffers"].append(counted[1])
        guest.buffer = counted[1], counted[0] * BLOCK
        return True
    guest.answer(*answer)
    if answer[1]:
        log.refuse(function, answer[0]["ax"] >> 8)
    return False


def give_turn(service, guests, logs, waiting, story):
    served = service.turn()
    if served is None:
        return
    number, moved = served
    logs[number].turns += 1
    logs[number].blocks += moved
    story.append(f"{number}:{moved}")
    answer = service.collect(number)
    if answer:
        guests[number].written(*guests[number].buffer)
        guests[number].answer(*answer)
        waiting.discard(number)


def boot(service):
    guests = [Guest(n, service.window_address(n), service.window, disk["drive"]) for n, disk in enumerate(service.disks)]
    logs, waiting, running, story = [Log() for _ in guests], set(), set(range(len(guests))), []
    for guest, disk in zip(guests, service.disks):
        first = disk["first"] * BLOCK
        guest.start(bytes(service.store[first : first + BLOCK]))
    while running:
        for number in sorted(running - waiting):
            guests[number].run()
            if guests[number].asks != "disk":
                running.discard(number)
            elif post(service, guests[number], logs[number]):
                waiting.add(number)
        give_turn(service, guests, logs, waiting, story)
    return guests, logs, story


def many(number, thing):
    return f"{number} {thing}" if number == 1 else f"{number} {thing}s"


def spread(values):
    return f"{min(values)}" if min(values) == max(values) else f"{min(values)} to {max(values)}"


def show(service, guests, logs, story):
    for guest, disk, log in zip(guests, service.disks, logs):
        ends = {"key": "waits for a key"}.get(guest.asks, guest.asks)
        print(f"guest {guest.number}, drive {disk['drive']:X}h, {disk['name']}: {ends}")
        for line in guest.screen.text():
            print(f"    | {line}")
        for function, asked in sorted(log.functions.items()):
            line = f"    {function:02X}h {NAMES.get(function, '')}: {many(asked['calls'], 'call')}"
            if asked["counts"]:
                low, high = min(asked["buffers"]), max(asked["buffers"])
                line += f", {many(sum(asked['counts']), 'block')}, {spread(asked['counts'])} a call, buffers {low:05X}h to {high:05X}h"
            for code, times in sorted(asked["refused"].items()):
                line += f", {times} refused with {code:02X}h"
            print(line)
        print(f"    {many(log.blocks, 'block')} in {many(log.turns, 'turn')}")
    print("turns, guest:blocks  " + " ".join(story[:32]) + (" .." if len(story) > 32 else ""))
    between = sum(1 for a, b in zip(story, story[1:]) if a.split(":")[0] != b.split(":")[0])
    print(f"boot: {len(guests)} guests, {len(story)} turns, {between} times another guest was served next")


def main():
    if len(sys.argv) < 3 or len(sys.argv) > 10:
        sys.exit(__doc__)
    images = [(os.path.splitext(os.path.basename(path))[0], open(path, "rb").read()) for path in sys.argv[2:]]
    service = Service(os.path.abspath(sys.argv[1]), images, WINDOW)
    show(service, *boot(service))


main()
