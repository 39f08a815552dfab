"""The table of costs.sh, from the lines that it measured: name, size, seconds and kB of ours, the same of CLIPS, and how what both
print compares: same, differ, or ended, which is by the time limit.
"""

import math
import sys

# The least time that is told apart, in seconds.
TICK = 0.01
NOTES = {"same": "", "differ": "  PRINTS OTHER LINES", "ended": "  ended by the time limit"}


def ratio(a, b):
    return max(a, TICK) / max(b, TICK)


def growth(seconds):
    """How the last time compares with the one before, where that is long enough to say."""
    if len(seconds) > 1 and seconds[-2] >= 2 * TICK:
        return "%6.1f" % (seconds[-1] / seconds[-2])
    return "     -"


def worst(what, ratios):
    mean = math.exp(sum(math.log(it) for it in ratios.values()) / len(ratios))
    names = sorted(ratios, key=ratios.get, reverse=True)[:8]
    print("%s: geometric mean %.2f of %d programs; greatest %s" % (
        what, mean, len(ratios), ", ".join("%s %.2f" % (name, ratios[name]) for name in names)))


def main():
    print("%-19s %6s %7s %7s %6s  %5s %5s %6s  %6s %6s" % (
        "program", "size", "s", "CLIPS", "ratio", "MB", "CLIPS", "ratio", "growth", "CLIPS"))
    time, memory, grown, differ = {}, {}, {}, False
    before, ours, theirs = "", [], []
    for line in sys.stdin:
        name, size, seconds, kb, their_seconds, their_kb, note = line.split()
        if name != before:
            before, ours, theirs = name, [], []
        ours.append(float(seconds))
        theirs.append(float(their_seconds))
        grown[name] = ratio(ours[-1], theirs[-1]) / time.get(name, 1)
        time[name] = ratio(ours[-1], theirs[-1])
        memory[name] = int(kb) / int(their_kb)
        print("%-19s %6s %7.2f %7.2f %6.2f  %5.0f %5.0f %6.2f  %s %s%s" % (
            name, size, ours[-1], theirs[-1], time[name], int(kb) / 1024, int(their_kb) / 1024, memory[name],
            growth(ours), growth(theirs), NOTES[note]), flush=True)
        differ |= note == "differ"
    if not time:
        sys.exit("no program of these names")
    worst("time to CLIPS", time)
    worst("memory to CLIPS", memory)
    worst("growth to that of CLIPS", grown)
    sys.exit(differ)


main()
