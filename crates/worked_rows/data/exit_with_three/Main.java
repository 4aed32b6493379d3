/** An exit ends the run, also within a try. */
class Main {
    public static void main(String[] args) {
        try {
            sys.Native.exit(sys.Native.read());
        } finally {
            sys.Native.write('f');
        }
    }
}
