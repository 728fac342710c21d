// Two Runnables that count under one lock, which a class initializer makes with them.
class Counting {
    static final Object lock;
    static final Runnable[] workers;
    static int count;

    static {
        lock = new Object();
        workers = new Runnable[2];
        for (int i = 0; i < workers.length; i++) workers[i] = new Worker(5_000 * (i + 1));
    }

    static class Worker implements Runnable {
        private final int times;

        Worker(int times) { this.times = times; }

        public void run() {
            for (int i = 0; i < times; i++) {
                synchronized (lock) { count++; }
            }
        }
    }

    public static void main(String[] arguments) throws InterruptedException {
        Thread first = new Thread(workers[0]), second = new Thread(workers[1]);
        first.setPriority(2);
        first.start();
        second.start();
        first.join();
        second.join();
        System.out.println(count);
    }
}
