/** Overlapping ranges both ways, a range that does not fit, and an element that does not. */
class Main {
    static void show(int[] all) {
        for (int i = 0; i < all.length; i++) sys.Native.write('0' + all[i]);
        sys.Native.write(' ');
    }

    static int[] numbers() {
        int[] all = new int[6];
        for (int i = 0; i < all.length; i++) all[i] = i;
        return all;
    }

    public static void main(String[] args) {
        int[] all = numbers();
        System.arraycopy(all, 0, all, 2, 4);
        show(all);
        all = numbers();
        System.arraycopy(all, 2, all, 0, 4);
        show(all);
        try {
            System.arraycopy(all, 3, all, 0, 4);
        } catch (ArrayIndexOutOfBoundsException e) {
            sys.Native.write('i');
        }
        Object[] from = { "a", new Main(), "b" };
        String[] to = new String[3];
        try {
            System.arraycopy(from, 0, to, 0, 3);
        } catch (ArrayStoreException e) {
            sys.Native.write(to[0] == "a" && to[1] == null && to[2] == null ? 's' : '-');
        }
        try {
            System.arraycopy(all, 0, new long[4], 0, 1);
        } catch (ArrayStoreException e) {
            sys.Native.write('t');
        }
        System.arraycopy(null, 0, all, 0, 0);
    }
}
