// A slow thread works long under a lock; an urgent one wants that lock, to print how far the work is.
class Urgent {
    static final Object lock = new Object();
    static int count;

    static class Slow extends Thread {
        public void run() {
            synchronized (lock) {
                for (int i = 0; i < 1000; i++) count++;
            }
        }
    }

    static class Hurried extends Thread {
        public void run() {
            synchronized (lock) {
                System.out.println(count);
            }
        }
    }

    public static void main(String[] arguments) throws InterruptedException {
        Thread slow = new Slow(), hurried = new Hurried();
        slow.setPriority(1);
        hurried.setPriority(10);
        slow.start();
        hurried.start();
        slow.join();
        hurried.join();
        System.out.println(count);
    }
}
