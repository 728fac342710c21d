interface Area { String KIND = "area"; int SIDE = Shapes.next(); long area(int scale, long[] all); }
interface Named extends Area, Runnable { String name(Area other); boolean equals(Object other); }
abstract class Base implements Named {
    private static int made;
    static final byte SMALL = (byte) 200;
    static final char LETTER = '\uffff';
    static final short SHORT = (short) 40000;
    static final boolean FLAG = true;
    static final long LIMIT = -5_000_000_000L;
    static final String TEXT = "base";
    protected long depth = 3;
    int width;
    final Object lock = new Object();
    Base next;
    Base(int width) { this.width = width; made++; }
    public void run() { helper(); synchronized (lock) { depth += LIMIT; } }
    private void helper() { width++; System.out.println(depth); }
    static int count() { return made; }
    protected abstract int[] sides();
    boolean isWide() { return width > 7; }
}
class Square extends Base {
    static Square[] all = new Square[4];
    private long side;
    private Square[][] grid;
    Square(long side) { super((int) side); this.side = side; grid = new Square[2][]; }
    public long area(int scale, long[] sums) { sums[0] = side; return scale * side; }
    public String name(Area other) { return (Object) other instanceof Square[][][] ? "squares" : KIND; }
    protected int[] sides() { return new int[] { width, width }; }
    public boolean equals(Object other) { return other instanceof Square && ((Square) other).side == side; }
    private static void helper() { System.out.println("square"); }
    void show() { helper(); all[0].grid[1][0].run(); }
}
final class Cube extends Square {
    short corners = 8;
    byte[] bytes = new byte[8];
    char[] letters = { 'a' };
    Cube() { super(9L); }
    public long area(int scale, long[] sums) { return 6 * super.area(scale, sums) + (super.equals(this) ? width : depth); }
    protected int[] sides() { boolean[] seen = new boolean[2]; return seen[0] ? super.sides() : sides(); }
    public void run() { super.run(); super.show(); lock.notifyAll(); }
    void wait(int turns) { if (isWide()) show(); else wait(turns - 1); }
}
class Worker extends Thread {
    private final Named work;
    private int state;
    Worker(Named work) { super(work); this.work = work; }
    public void run() {
        try { work.run(); super.run(); } catch (ArithmeticException | ArrayStoreException fault) { state = -1; throw fault; }
        finally { setPriority(4); System.out.println(work.equals(getPriority() > 3 ? this : null)); }
    }
    class Inner { int own = ++state; void stop() throws InterruptedException { join(); System.out.println(own); } }
}
public class Shapes {
    static volatile int calls;
    static int next() { return ++calls; }
    static Object[] things(String[][] words, Area[] areas, short[] shorts) {
        return words.length > 0 ? words : areas != null ? areas : new Object[][] { null, new Class[] { Cube.class, Base.class } };
    }
    static <T> java.util.List<T> absent(java.util.Map<String, T> map) { return null; }
    public static void main(String[] words) throws Exception {
        Named cube = new Cube();
        Worker worker = new Worker(cube);
        worker.start();
        worker.join();
        if (words.equals(null)) throw new IllegalStateException("no words");
        System.out.println(cube.area(70000, new long[1]) + Base.count() + Area.SIDE + 5_000_000_001L);
        System.out.println(Cube.TEXT == cube.name(cube));
        new Thread(cube).start();
    }
}
