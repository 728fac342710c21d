// A slow thread holds two locks, one inside the other. One urgent thread wants the inner lock, and another the outer one.
class Nested {
    static final Object outer = new Object(), inner = new Object();
    static int first, second;

    static class Slow extends Thread {
        public void run() {
            synchronized (outer) {
                first = 1;
                synchronized (inner) {
                    for (int i = 0; i < 100; i++) second++;
                }
                first = 2;
            }
        }
    }

    static class WantsInner extends Thread {
        public void run() {
            synchronized (inner) {
                System.out.println(1000 + second);
            }
        }
    }

    static class WantsOuter extends Thread {
        public void run() {
            synchronized (outer) {
                System.out.println(2000 + first);
            }
        }
    }

    public static void main(String[] arguments) throws InterruptedException {
        Thread slow = new Slow(), inner = new WantsInner(), outer = new WantsOuter();
        slow.setPriority(1);
        inner.setPriority(10);
        outer.setPriority(9);
        slow.start();
        inner.start();
        outer.start();
        slow.join();
        inner.join();
        outer.join();
        System.out.println(first);
        System.out.println(second);
    }
}
