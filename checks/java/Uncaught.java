// Programs that an exception ends: the machine's own, each behind a printed line, and a program's. Each class is one.
class Uncaught {
    static int zero;
    static int[] few = new int[2];
    static Object text = "text";
    static Uncaught none;
    int field;

    static void begin() {
        System.out.println("begins");
        zero = 0;
    }

    public static void main(String[] it) {
        begin();
    }

    static class Division { public static void main(String[] it) { begin(); System.out.println(1 / zero); } }
    static class Remainder { public static void main(String[] it) { begin(); System.out.println(1L % zero); } }
    static class Null { public static void main(String[] it) { begin(); System.out.println(none.field); } }
    static class Index { public static void main(String[] it) { begin(); System.out.println(few[2]); } }
    static class Size { public static void main(String[] it) { begin(); System.out.println(new int[zero - 1].length); } }
    static class Store { public static void main(String[] it) { begin(); ((Object[]) new String[1])[0] = new Object(); } }
    static class Cast { public static void main(String[] it) { begin(); none = (Uncaught) text; System.out.println("behind"); } }
    static class Monitor { public static void main(String[] it) { begin(); text.notify(); System.out.println("behind"); } }
    static class Argument { public static void main(String[] it) { begin(); Thread.currentThread().setPriority(zero); } }
    static class Started { public static void main(String[] it) { begin(); Thread.currentThread().start(); } }
    static class Initializer {
        static class Fails { static int value = 1 / zero; }
        public static void main(String[] it) { begin(); System.out.println(Fails.value); }
    }
    static class Bad {
        static class Fails { static int value = few[3]; }
        public static void main(String[] it) {
            begin();
            try { System.out.println(Fails.value); } catch (ExceptionInInitializerError e) { System.out.println("caught"); }
            System.out.println(Fails.value);
        }
    }
    static class MainFails {
        static int value = 1;
        static { System.out.println("first"); value /= zero; }
        public static void main(String[] it) { System.out.println("never"); }
    }
    static class Own extends Exception {
        Own() { super("own"); }
        static void deep(int n) throws Own {
            try {
                if (n == 0) throw new Own();
                deep(n - 1);
            } finally {
                System.out.println(n);
            }
        }
        public static void main(String[] it) throws Own {
            try {
                deep(5);
            } catch (Own e) {
                System.out.println(e.getMessage());
                throw e;
            } finally {
                System.out.println("at last");
            }
        }
    }
    static class Joined implements Runnable {
        static int count;
        public void run() { synchronized (Joined.class) { count++; } }
        public static void main(String[] it) throws InterruptedException {
            Thread[] all = { new Thread(new Joined()), new Thread(new Joined()) };
            for (Thread thread : all) thread.start();
            for (Thread thread : all) thread.join();
            System.out.println(count);
            synchronized (Joined.class) { throw new IllegalStateException(); }
        }
    }
}
