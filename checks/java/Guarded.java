// Monitors of one thread: blocks left by throw, return, break and continue, entered again, synchronized methods. Whether
// a monitor is held shows in notify, which only its owner may call.
class Guarded {
    static final Object first = new Object(), second = new int[1];
    int count;

    static boolean holds(Object it) {
        try {
            it.notify();
            return true;
        } catch (IllegalMonitorStateException e) {
            return false;
        }
    }

    static void show() {
        System.out.println((holds(first) ? 1 : 0) + (holds(second) ? 2 : 0) + (holds(Guarded.class) ? 4 : 0));
    }

    static int left(int how) {
        for (int i = 0; i < 3; i++) {
            synchronized (first) {
                show();
                synchronized (second) {
                    show();
                    if (how == 0) return i;
                    if (how == 1) break;
                    if (how == 2) continue;
                    if (how == 3) throw new IllegalStateException();
                    if (how == 4) how /= i;
                    if (how == 5) synchronized (first) { show(); return how; }
                }
                show();
            }
            show();
        }
        return -how;
    }

    synchronized int again(int depth) {
        count++;
        if (depth == 0) { System.out.println(holds(this)); return count; }
        int result = again(depth - 1);
        System.out.println(holds(this));
        return result * 2;
    }

    synchronized void fails(int n) {
        if (n == 0) throw new IllegalArgumentException();
        try {
            fails(n - 1);
        } finally {
            System.out.println(holds(this));
        }
    }

    static synchronized int ofClass(Guarded it) {
        show();
        synchronized (it) {
            return it.again(1);
        }
    }

    static synchronized void changed(Object it) {
        synchronized (it) {
            it = second;
            show();
            System.out.println(holds(it));
        }
        show();
    }

    long waits(boolean owned) throws InterruptedException {
        try {
            if (owned) synchronized (this) { notifyAll(); notify(); return count; }
            wait();
        } catch (IllegalMonitorStateException e) {
            return 1L << 40;
        } finally {
            System.out.println(holds(this));
        }
        return 0;
    }

    public static void main(String[] arguments) throws InterruptedException {
        for (int how = 0; how < 7; how++) {
            try {
                System.out.println(left(how));
            } catch (IllegalStateException e) {
                System.out.println("thrown");
            } catch (ArithmeticException e) {
                System.out.println("divided");
            }
            show();
        }
        Guarded some = new Guarded();
        System.out.println(some.again(4));
        System.out.println(holds(some));
        try {
            some.fails(3);
        } catch (RuntimeException e) {
            System.out.println(holds(some));
        }
        System.out.println(ofClass(some));
        changed(first);
        System.out.println(some.waits(true));
        System.out.println(some.waits(false));
        synchronized (some) {
            synchronized (some) {
                System.out.println(holds(some));
            }
            System.out.println(holds(some));
        }
        System.out.println(holds(some));
        show();
    }
}
