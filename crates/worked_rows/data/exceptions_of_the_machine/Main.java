/** Each exception that the machine throws, caught by its class. */
class Main {
    static int[] none;
    static Object text = "t";

    static void fail(int which) {
        switch (which) {
            case 0: which /= which - which; return;
            case 1: none[0] = 1; return;
            case 2: { int[] two = new int[2]; two[2] = 1; return; }
            case 3: none = new int[2 - which]; return;
            case 4: none = (int[]) text; return;
            case 5: { Object[] texts = new String[1]; texts[0] = new Main(); return; }
            default: throw null;
        }
    }

    static int caught(int which) {
        try {
            fail(which);
            return '-';
        } catch (ArithmeticException e) {
            return 'a';
        } catch (NullPointerException e) {
            return 'n';
        } catch (ArrayIndexOutOfBoundsException e) {
            return 'i';
        } catch (NegativeArraySizeException e) {
            return 's';
        } catch (ClassCastException e) {
            return 'c';
        } catch (ArrayStoreException e) {
            return 't';
        }
    }

    public static void main(String[] args) {
        for (int which = 0; which < 7; which++) sys.Native.write(caught(which));
        fail(4);
    }
}
