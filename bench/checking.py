"""Times `check` beside the Java virtual machine, which loads and verifies the same classes. Skipped without java.

There are made classes, and classes that the Java compiler makes of sources with loops, switches, handlers, arrays, longs,
interfaces and new objects.
"""

import os
import shutil
import subprocess
import tempfile

from class_files import class_by_itself, name_of
from measuring import PROGRAM, best

LOADER = """
public class Loader {
    public static void main(String[] names) throws Exception {
        for (String name : new java.io.File(names[0]).list())
            Class.forName(name.substring(0, name.length() - 6));
    }
}
"""

SOURCE = """
public class %(name)s implements %(name)sShape {
    private int[] cells = new int[16];
    private long total;
    private %(name)s next;

    public %(name)s(%(name)s next) { this.next = next; }

    public long area(int scale) {
        long sum = 0L;
        for (int i = 0; i < cells.length; i++) {
            try {
                sum += (long) cells[i] / (scale - i) << 3;
            } catch (ArithmeticException e) {
                total ^= sum;
            }
        }
        return sum;
    }

    public static int named(int letter) {
        switch (letter) {
            case 1: return 10;
            case 2: return 20;
            case 1000: return 30;
            default: return letter > 5 ? named(letter - 1) : -1;
        }
    }

    public Object[] gathered(int count) {
        Object[] all = new Object[count];
        %(name)s one = this;
        while (one != null && count-- > 0) {
            all[count] = one;
            one = one.next;
        }
        int[][] table = new int[count & 7][3];
        System.arraycopy(cells, 0, table[0], 0, 3);
        %(name)sShape shape = new %(name)s(one);
        total += shape.area(named(count)) + (shape instanceof %(name)s ? 1 : 0);
        if (total < 0) throw new IllegalArgumentException();
        return all;
    }
}

interface %(name)sShape { long area(int scale); }
"""


def made(folder, count):
    """Fills a folder with made classes."""
    os.mkdir(folder)
    for number in range(count):
        with open(os.path.join(folder, name_of(number) + ".class"), "wb") as out:
            out.write(class_by_itself(number, count))


def compiled(folder, count):
    """Fills a folder with classes that the Java compiler makes, of major 52."""
    os.mkdir(folder)
    with tempfile.TemporaryDirectory() as sources:
        names = [os.path.join(sources, "T%05d.java" % number) for number in range(count // 2)]
        for number, name in enumerate(names):
            with open(name, "w") as out:
                out.write(SOURCE % {"name": "T%05d" % number})
        subprocess.run(["javac", "--release", "8", "-Xlint:-options", "-d", folder] + names, check=True)


def growing():
    """Prints the time of a byte for sets of growing size, and answers what went past its bound."""
    past = []
    print("| classes | | bytes | seconds | nanoseconds a byte |")
    print("|---|---|---|---|---|")
    for kind, fill in (("made", made), ("compiled", compiled)):
        first = None
        for count in (100, 1_000, 10_000):
            with tempfile.TemporaryDirectory() as work:
                folder = os.path.join(work, "in")
                fill(folder, count)
                total = sum(entry.stat().st_size for entry in os.scandir(folder))
                seconds, _ = best([PROGRAM, "check", folder], work, 5, status=0)
            first = first or seconds / total
            print("| %d | %s | %d | %.4f | %.0f |" % (count, kind, total, seconds, 1e9 * seconds / total))
            if seconds / total > 2 * first:
                past.append("%d classes, %s: over twice the time of a byte of 100" % (count, kind))
    return past


def checking():
    """Prints the table, and answers what went past its bound."""
    past = []
    if not (shutil.which("java") and shutil.which("javac")):
        print("no java: skipped")
        return past
    past += growing()
    print()
    print("| classes | | bytes | phosphor check | java -Xverify:all | ratio |")
    print("|---|---|---|---|---|---|")
    with tempfile.TemporaryDirectory() as work:
        with open(os.path.join(work, "Loader.java"), "w") as out:
            out.write(LOADER)
        subprocess.run(["javac", "Loader.java"], cwd=work, check=True)
        for kind, fill in (("made", made), ("compiled", compiled)):
            for count in (300, 3_000):
                folder = os.path.join(work, "%s%d" % (kind, count))
                fill(folder, count)
                total = sum(entry.stat().st_size for entry in os.scandir(folder))
                ours, _ = best([PROGRAM, "check", folder], work, 5, status=0)
                java = ["java", "-Xverify:all", "-cp", ".:" + folder, "Loader", folder]
                theirs, _ = best(java, work, 5, status=0)
                print("| %d | %s | %d | %.3f | %.3f | %.3f |" % (count, kind, total, ours, theirs, ours / theirs))
                if ours > theirs:
                    past.append("%d classes, %s: checking takes longer than the virtual machine" % (count, kind))
    return past
