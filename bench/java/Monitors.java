// A synchronized method and a synchronized block of one thread, then two threads under one lock.
class Monitors implements Runnable {
    static final Object lock = new Object();
    static int count;

    static int both;
    int own;

    synchronized void add() { own++; }

    public void run() {
        for (int i = 0; i < 100000; i++) {
            synchronized (lock) { both++; }
        }
    }

    public static void main(String[] arguments) throws InterruptedException {
        Monitors some = new Monitors();
        for (int i = 0; i < 500000; i++) some.add();
        for (int i = 0; i < 500000; i++) {
            synchronized (lock) { count++; }
        }
        System.out.println(some.own + count);
        Thread first = new Thread(some), second = new Thread(some);
        first.start();
        second.start();
        first.join();
        second.join();
        System.out.println(both);
    }
}
