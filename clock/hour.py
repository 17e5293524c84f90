#!/usr/bin/env python3
"""Runs the program hour and holds every line that it prints against the line that SCOPE 13.2 to 13.4 have in its place.

    hour.py COMMAND [ARGUMENT ...]

Whole numbers alone are reckoned with, of any length. e is found by the rule's own inequality, for each speed anew: the whole number with (2e-1)^64 <=
2^(1088+p) < (2e+1)^64 (SCOPE 13.2). In Playing n hundredths of wall time from 0 are n times e 65,536ths of a hundredth, in however many steps they pass, so
that position and rest are the quotient and the remainder of that by 65,536.

Exit 1 and a line for each of the first differences, or exit 0; the last line says what was compared."""
import subprocess
import sys

SPEEDS = range(-128, 128)
MINUTES, MINUTE = 60, 6000  # in hundredths of a second
LONGEST_STEP = 2 ** 32 - 1
MOST = 8640000  # the longest duration, and the last position of a running recording
PARTS = 65536  # of a hundredth
PLAYING, PAUSED = 1, 2
SHOWN = 10


def holds(e, speed):
    return (2 * e - 1) ** 64 <= 2 ** (1088 + speed) < (2 * e + 1) ** 64


def e_of(speed):
    """The one whole number for which the inequality holds. Below it the upper bound is broken and above it the lower one, so that
    halving finds it."""
    least, most = 1, 2 ** 20
    while not holds((least + most) // 2, speed):
        middle = (least + most) // 2
        if 2 ** (1088 + speed) < (2 * middle - 1) ** 64:
            most = middle - 1
        else:
            least = middle + 1
    return (least + most) // 2


def the_hour(speed):
    """A line for each minute."""
    e = e_of(speed)
    for minute in range(1, MINUTES + 1):
        position, rest = divmod(minute * MINUTE * e, PARTS)
        assert position < MOST
        yield "hour %d %d %d" % (speed, position, rest)


def the_longest_step(speed):
    """A hundredth of a second, and then the longest step: a running recording stays at its last position, with the rest that it had; a
    track of known duration ends, and where no track comes next the player is Paused at its end, with no rest."""
    e = e_of(speed)
    position, rest = divmod(e, PARTS)
    whole = min((rest + LONGEST_STEP * e) // PARTS, MOST)
    assert position + whole >= MOST
    yield "running %d %d %d %d" % (speed, MOST, rest, PLAYING)
    yield "known %d %d %d %d" % (speed, MOST, 0, PAUSED)


def main(command):
    if not command:
        sys.exit(__doc__)
    hours = [line for speed in SPEEDS for line in the_hour(speed)]
    steps = [line for speed in SPEEDS for line in the_longest_step(speed)]
    should = hours + steps
    run = subprocess.run(command, stdout=subprocess.PIPE, check=True, encoding="ascii")
    printed = run.stdout.splitlines()
    differences = ["line %d is '%s', not '%s'" % (number, is_, ought) for number, (is_, ought) in
                   enumerate(zip(printed, should), 1) if is_ != ought]
    if len(printed) != len(should):
        differences.append("there are %d lines, not %d" % (len(printed), len(should)))
    print(*differences[:SHOWN], sep="\n", end="\n" if differences else "")
    print("%d minutes of an hour at %d speeds, and %d steps of 2^32 - 1 hundredths: %s" %
          (len(hours), len(SPEEDS), len(steps), "%d differences" % len(differences) if differences else "all as worked out"))
    sys.exit(1 if differences else 0)


if __name__ == "__main__":
    main(sys.argv[1:])
