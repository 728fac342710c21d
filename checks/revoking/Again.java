// An urgent thread wants the lock three times, each time while the slow thread of Urgent works under it.
class Again {
    static class Hurried extends Thread {
        public void run() {
            for (int i = 0; i < 3; i++) {
                synchronized (Urgent.lock) {
                    System.out.println(Urgent.count);
                }
            }
        }
    }

    public static void main(String[] arguments) throws InterruptedException {
        Thread slow = new Urgent.Slow(), hurried = new Hurried();
        slow.setPriority(1);
        hurried.setPriority(10);
        slow.start();
        hurried.start();
        slow.join();
        hurried.join();
        System.out.println(Urgent.count);
    }
}
