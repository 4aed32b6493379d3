/** A class that throws in its initializer ends the run, also where the caller catches everything. */
class Main {
    public static void main(String[] args) {
        try {
            sys.Native.write('a');
            Fails.give();
        } catch (Throwable any) {
            sys.Native.write('b');
        }
    }
}

class Fails {
    static int zero;
    static int number = 1 / zero;

    static int give() { return number; }
}
