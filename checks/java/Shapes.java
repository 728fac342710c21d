// Classes, inner classes and interfaces: selection, super calls, fields that hide, accessors, casts, constructors.
class Shapes {
    interface Shape { int FACTOR = 3; int area(); Shape grown(int by); }
    interface Named { String name(); }
    interface Both extends Shape, Named { long LIMIT = new Box(9).area() * 1000L; }

    static abstract class Base implements Shape {
        static int made;
        protected int size;
        private final int number;
        Base(int size) { this.size = size; number = ++made; prepare(); }
        void prepare() { size++; }
        int number() { return number; }
        public abstract int area();
        public String toString() { return "base"; }
    }

    static class Box extends Base implements Both {
        int size;
        int prepared = 5;
        Box(int size) { super(size + 10); this.size = size; }
        void prepare() { super.prepare(); prepared = 8; System.out.println(size); }
        public int area() { return size * super.size * FACTOR; }
        public Box grown(int by) { return new Box(size + by); }
        public String name() { return "box"; }
    }

    static final class Cube extends Box {
        Cube() { this(2); }
        private Cube(int size) { super(size); }
        public int area() { return 6 * super.area(); }
        public Cube grown(int by) { return by == 0 ? this : new Cube(size * by); }
        public String name() { return "cube"; }
        private int secret() { return size + 40; }
    }

    private int counter;
    private long total = 1L << 33;

    class Counter implements Shape {
        int steps;
        class Deep { int both() { return ++counter + ++steps; } }
        public int area() { counter += 2; total -= 1; return new Deep().both(); }
        public Shape grown(int by) { steps += by; return this; }
    }

    Shape counting(final int start, final String label) {
        return new Shape() {
            int here = start;
            public int area() { System.out.println(label); return here++ + counter; }
            public Shape grown(int by) { here += by; return new Counter().grown(by); }
        };
    }

    static void cast(Object it) {
        System.out.println(it instanceof Shape);
        System.out.println(it instanceof Named);
        System.out.println(it instanceof Box);
        System.out.println(it instanceof Cube);
        try {
            Box box = (Box) it;
            System.out.println(box == null ? "none" : box.name());
            System.out.println(((Cube) it).secret());
        } catch (ClassCastException e) {
            System.out.println("not of this class");
        } catch (NullPointerException e) {
            System.out.println("null");
        }
    }

    public static void main(String[] arguments) {
        Shapes shapes = new Shapes();
        Box box = new Box(4);
        Cube cube = new Cube();
        Shape[] all = { box, cube, cube.grown(0), cube.grown(5), box.grown(1), shapes.counter(), shapes.counting(50, "counted") };
        for (int round = 0; round < 2; round++) {
            for (Shape it : all) {
                System.out.println(it.area());
                System.out.println(it.grown(round + 1).area());
            }
        }
        System.out.println(box.size);
        System.out.println(((Base) box).size);
        System.out.println(box.prepared);
        System.out.println(box.toString());
        System.out.println(cube.number() * 100 + Base.made);
        System.out.println(Both.LIMIT);
        System.out.println(Base.made);
        System.out.println(cube.name());
        System.out.println(((Named) box).name());
        System.out.println(shapes.counter);
        System.out.println(shapes.total);
        System.out.println(all[1] == all[2]);
        System.out.println(all[1].equals(all[3]));
        Object[] things = { box, cube, all, shapes, null, "text" };
        for (Object it : things) cast(it);
    }

    Shape counter() { return new Counter(); }
}
