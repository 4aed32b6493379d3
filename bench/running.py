"""Times `run` beside `java -Xint`, the Java virtual machine's interpreter, on the same class files. Skipped without java.

Each program runs with two counts, and the difference of the two times is compared, so that neither start is counted.
"""

import os
import shutil
import subprocess
import tempfile

from measuring import MIB, PROGRAM, best

STEPS = "9" * 18

# What the virtual machine has in the place of the natives.
NATIVE = """
package sys;
public class Native {
    public static int read() { try { return System.in.read(); } catch (java.io.IOException e) { return -1; } }
    public static void write(int value) { System.out.write(value); System.out.flush(); }
    public static void exit(int status) { System.exit(status); }
}
"""

LOOP = """
public class Loop {
    public static void main(String[] args) {
        int sum = 0;
        for (int i = 0; i < %(count)d; i++) {
            sum = sum * 31 + (i ^ (sum >>> 3));
            if ((sum & 7) == 3) sum -= i;
        }
        sys.Native.write(sum);
    }
}
"""

SIEVE = """
public class Sieve {
    public static void main(String[] args) {
        int found = 0;
        for (int round = 0; round < %(count)d; round++) {
            boolean[] crossed = new boolean[10000];
            found = 0;
            for (int i = 2; i < crossed.length; i++) {
                if (crossed[i]) continue;
                found++;
                for (int j = i + i; j < crossed.length; j += i) crossed[j] = true;
            }
        }
        sys.Native.write(found);
    }
}
"""

CALLS = """
public class Calls {
    int value;

    Calls(int value) { this.value = value; }

    int more(int by) { return value + by; }

    static int twice(int value) { return value + value; }

    public static void main(String[] args) {
        int sum = 0;
        Calls kept = new Calls(7);
        for (int i = 0; i < %(count)d; i++) {
            Calls calls = (i & 15) == 0 ? new Calls(i) : kept;
            sum += calls.more(i) + twice(sum);
        }
        sys.Native.write(sum);
    }
}
"""

# The program, its source, the two counts, and the least part of the interpreter's rate.
PROGRAMS = (
    ("Loop", LOOP, 1_000_000, 21_000_000, 1 / 5),
    ("Sieve", SIEVE, 10, 410, 1 / 5),
    ("Calls", CALLS, 100_000, 5_100_000, 1 / 3),
)


def compiled(folder, native, name, source, count):
    """Compiles a program with this count into a folder of its own."""
    os.mkdir(folder)
    path = os.path.join(folder, name + ".java")
    with open(path, "w") as out:
        out.write(source % {"count": count})
    subprocess.run(["javac", "--release", "8", "-Xlint:-options", "-cp", native, path], check=True)
    os.remove(path)


def running():
    """Prints the table, and answers what went past its bound."""
    past = []
    if not (shutil.which("java") and shutil.which("javac")):
        print("no java: skipped")
        return past
    print("| program | rounds | phosphor run | java -Xint | part of its rate | peak |")
    print("|---|---|---|---|---|---|")
    with tempfile.TemporaryDirectory() as work:
        native = os.path.join(work, "native")
        os.makedirs(os.path.join(native, "sys"))
        with open(os.path.join(native, "sys", "Native.java"), "w") as out:
            out.write(NATIVE)
        subprocess.run(["javac", os.path.join(native, "sys", "Native.java")], check=True)
        for name, source, few, many, least in PROGRAMS:
            ours, javas = [], []
            for count in (few, many):
                folder = os.path.join(work, "%s%d" % (name, count))
                compiled(folder, native, name, source, count)
                ours.append(best([PROGRAM, "run", folder, name, STEPS], work, 3, status=0))
                javas.append(best(["java", "-Xint", "-cp", folder + ":" + native, name], work, 3, status=0))
            own = ours[1][0] - ours[0][0]
            java = javas[1][0] - javas[0][0]
            print("| %s | %d | %.3f | %.3f | %.2f | %.1f MiB |" % (name, many - few, own, java, java / own, ours[1][1] / MIB))
            if java < least * own:
                past.append("%s: below %.2f of the rate of java -Xint" % (name, least))
    return past
