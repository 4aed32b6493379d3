/** Both switches, on both sides of their rows. */
class Main {
    static int near(int value) {
        switch (value) {
            case 3: return 'a';
            case 4: return 'b';
            case 5: return 'c';
            default: return 'd';
        }
    }

    static int far(int value) {
        switch (value) {
            case -1000: return 'e';
            case 0: return 'f';
            case 1000: return 'g';
            default: return 'h';
        }
    }

    public static void main(String[] args) {
        for (int value = 2; value < 7; value++) sys.Native.write(near(value));
        for (int value = -1001; value < 1500; value += 1001) sys.Native.write(far(value));
        sys.Native.write(far(-1000));
        sys.Native.write(far(1000));
    }
}
