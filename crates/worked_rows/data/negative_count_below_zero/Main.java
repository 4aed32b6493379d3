/** Each count of a multianewarray is judged before anything is made. */
class Main {
    static int less = -1;

    public static void main(String[] args) {
        int[][] all = new int[0][less];
        sys.Native.write('-');
    }
}
