/** A superclass begins first; its initializer calls into the subclass, which has begun as well then. */
class Main {
    public static void main(String[] args) {
        sys.Native.write('m');
        Lower.call();
        new Lower();
        sys.Native.write('e');
    }
}

class Upper {
    static { sys.Native.write('u'); Lower.call(); }
}

class Lower extends Upper {
    static { sys.Native.write('l'); }

    static void call() { sys.Native.write('c'); }
}
