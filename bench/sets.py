"""Times the load of made sets of classes by `check`, beside decoding alone.

Decoding alone is timed by one more file that is no class file, behind all others: it is told once every other file was
decoded, and before any set is judged. The load up to the types of code is timed by one more class before all others that does
not verify: it is told once the profile and the whole set were judged.
"""

import os
import tempfile

from class_files import SETS, class_of_many_frames, class_refused_by_its_types, name_of
from measuring import MIB, PROGRAM, best

SIZES = (1_000, 10_000, 100_000)


def fill(folder, made, count):
    total = 0
    for number in range(count):
        data = made(number, count)
        with open(os.path.join(folder, name_of(number) + ".class"), "wb") as out:
            out.write(data)
        total += len(data)
    return total


def times(made, count, runs):
    """The bytes of a set, the seconds and the peak of its load, and the seconds of its load up to types and of decoding alone."""
    with tempfile.TemporaryDirectory() as work:
        folder = os.path.join(work, "in")
        os.mkdir(folder)
        total = fill(folder, made, count)
        command = [PROGRAM, "check", "in"]
        seconds, peak = best(command, work, runs, status=0)
        first = os.path.join(folder, "A.class")
        with open(first, "wb") as out:
            out.write(class_refused_by_its_types("A"))
        linking, _ = best(command, work, runs, status=2)
        os.remove(first)
        with open(os.path.join(folder, "z.class"), "wb"):
            pass
        decoding, _ = best(command, work, runs, status=2)
        return total, seconds, peak, linking, decoding


def sets():
    """Prints the table of sets, and answers what went past its bound."""
    past = []
    print("| set | classes | bytes | seconds | MB/s | decoding alone | up to types / decoding | whole / decoding | peak / bytes |")
    print("|---|---|---|---|---|---|---|---|---|")
    for kind, made in SETS.items():
        first = None
        for count in SIZES:
            total, seconds, peak, linking, decoding = times(made, count, 5 if count < 100_000 else 2)
            first = first or seconds / total
            print(
                "| %s | %d | %d | %.3f | %.1f | %.3f | %.2f | %.2f | %.1f |"
                % (kind, count, total, seconds, total / seconds / 1e6, decoding, linking / decoding, seconds / decoding, peak / total)
            )
            if linking > 2 * decoding:
                past.append("%s of %d: loading up to types takes over twice the time of decoding" % (kind, count))
            if seconds / total > 2 * first:
                past.append("%s of %d: over twice the time per byte of %d" % (kind, count, SIZES[0]))
    return past


def frames():
    """Prints the time of one method of growing size, and answers what went past its bound."""
    past = []
    first = None
    print("| frames | bytes of code | seconds | microseconds a frame | peak |")
    print("|---|---|---|---|---|")
    for count in (1_000, 3_000, 10_000):
        with tempfile.TemporaryDirectory() as work:
            os.mkdir(os.path.join(work, "in"))
            with open(os.path.join(work, "in", "M.class"), "wb") as out:
                out.write(class_of_many_frames(count))
            seconds, peak = best([PROGRAM, "check", "in"], work, 10, status=0)
        first = first or seconds / count
        print("| %d | %d | %.4f | %.2f | %.1f MiB |" % (count, 6 * count + 1, seconds, 1e6 * seconds / count, peak / MIB))
        if seconds / count > 2 * first:
            past.append("a method of %d frames: over twice the time of a frame" % count)
    return past
