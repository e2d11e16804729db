"""Counts the guest instructions of one call from the emulator's log:

    qemu-x86_64 -d op,exec,nochain -D /dev/stdout PROGRAM .. | python3 bench/count.py SYMBOLS FUNCTION [PROFILE]

SYMBOLS is what `nm` prints of the program, which lies at fixed addresses. Counted is what runs from the first step of
FUNCTION to the first step of the function `finished`: for each translated block the times it was entered, times its
instructions. Prints the count; with PROFILE also the share of each function and of the dearest blocks.
"""

import bisect
import collections
import sys


def symbols(path):
    """The functions' addresses in order, and their names."""
    lines = (line.split(maxsplit=2) for line in open(path, encoding="utf-8"))
    return sorted((int(parts[0], 16), parts[2].strip()) for parts in lines if len(parts) == 3 and parts[1] in "tTwW")


def place_of(entry):
    """The guest address in a line `Trace 0: HOST [BASE/ADDRESS/..`."""
    return int(entry.split(b"/", 2)[1], 16)


def counted(log, first, last):
    """How often each block was entered between the two places, and the instructions of each block."""
    entered, sizes = collections.Counter(), {}
    size, within = 0, False
    for line in log:
        if line.startswith(b"Trace"):
            if size:
                sizes[line], size = size, 0
                place = place_of(line)
                if place == last:
                    break
                within = within or place == first
            if within:
                entered[line] += 1
        elif line.startswith(b" ---- "):
            size += 1
    for _ in log:
        pass
    return entered, sizes


def name_at(known, place):
    """The function that holds an address; what lies outside the program is the C library's."""
    at = bisect.bisect_right(known, (place, "\x7f")) - 1
    return known[at][1] if at >= 0 and place < known[-1][0] + 4096 else "(C library)"


def main(path, function, profile):
    """The count, and the shares if they are asked for."""
    known = symbols(path)
    places = {name: place for place, name in known}
    entered, sizes = counted(sys.stdin.buffer, places[function], places["finished"])
    total = sum(times * sizes[entry] for entry, times in entered.items())
    print(total)
    if not profile:
        return
    shares = collections.Counter()
    for entry, times in entered.items():
        shares[name_at(known, place_of(entry))] += times * sizes[entry]
    for name, share in shares.most_common(12):
        print(f"{share:10} {100 * share / total:5.1f} % {name}")
    for entry, times in sorted(entered.items(), key=lambda each: -each[1] * sizes[each[0]])[:24]:
        print(f"{times * sizes[entry]:10} = {times:7} x {sizes[entry]:3} at {place_of(entry):x} {name_at(known, place_of(entry))}")


if __name__ == "__main__":
    main(sys.argv[1], sys.argv[2], len(sys.argv) > 3)
