/** The least long divided by -1 is itself, with remainder 0. */
class Main {
    static long least = -9223372036854775807L - 1;
    static long less = -1;

    public static void main(String[] args) {
        sys.Native.write(least / less == least ? 'y' : 'n');
        sys.Native.write(least % less == 0 ? 'y' : 'n');
        sys.Native.write((int) (least >>> 56) & 255);
        sys.Native.write((1 << 33) + '0');
        sys.Native.write((-7 % 3) + '9');
    }
}
