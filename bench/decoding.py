"""Times decoding, beside `cat` over the same files in the same run.

Each folder holds copies of a small class under different names, or one class file of 16 MiB, and behind them one more
file that is no class file: it is told once every other file was listed, read and decoded.
"""

import os
import tempfile

from class_files import sum_of_two_bytes
from measuring import MIB, PROGRAM, best


def fill(folder, files, pad):
    total = 0
    for at in range(files):
        name = "C%05d" % at
        data = sum_of_two_bytes(name, pad)
        with open(os.path.join(folder, name + ".class"), "wb") as out:
            out.write(data)
        total += len(data)
    with open(os.path.join(folder, "z.class"), "wb"):
        pass
    return total


def decoding():
    """Prints the table of decoding, and answers what went past its bound."""
    past = []
    print("| files | bytes | seconds | cat | ratio | peak | peak / bytes |")
    print("|---|---|---|---|---|---|---|")
    for files, pad, runs in [(1, 0, 10), (1_000, 0, 5), (10_000, 0, 3), (1, 16 * MIB - 100_000, 5)]:
        with tempfile.TemporaryDirectory() as work:
            folder = os.path.join(work, "in")
            os.mkdir(folder)
            total = fill(folder, files, pad)
            cat = ["sh", "-c", "find in -type f | xargs cat"]
            cat_seconds, _ = best(cat, work, runs)
            seconds, peak = best([PROGRAM, "check", "in"], work, runs, status=2)
            print(
                "| %d | %d | %.3f | %.3f | %.1f | %.1f MiB | %.1f |"
                % (files, total, seconds, cat_seconds, seconds / cat_seconds, peak / MIB, peak / total)
            )
            if files >= 10_000 and seconds > 6 * cat_seconds:
                past.append("%d files: over 6 times the time of cat" % files)
            if peak > 30 * total + 20_000_000:
                past.append("%d files: over 30 times the bytes read plus 20 MB" % files)
    return past
