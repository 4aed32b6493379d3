/** Selection by the receiver's class, interfaces, recursion, literals and longs in calls. */
interface Shape { long area(long scale); }

class Square implements Shape {
    long side;

    Square(long side) { this.side = side; }

    public long area(long scale) { return side * side * scale; }

    int letter() { return 's'; }
}

class Named extends Square {
    String name;

    Named(String name) { super(3); this.name = name; }

    int letter() { return name == "n" ? super.letter() + 1 : 'x'; }
}

class Main {
    static int depth(int n) { return n == 0 ? 0 : 1 + depth(n - 1); }

    public static void main(String[] args) {
        Shape shape = new Named("n");
        Square square = (Square) shape;
        sys.Native.write((int) shape.area(5L) + '0');
        sys.Native.write(square.letter());
        sys.Native.write(new Square(1).letter());
        sys.Native.write(depth(100));
        sys.Native.write(shape instanceof Named && !(args instanceof Object[] == false) ? 'y' : 'n');
        sys.Native.write(args.length + '0');
    }
}
