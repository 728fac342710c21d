// Several threads at once: in an initialization that ends, in one that fails, waiting with a monitor entered twice; and
// threads that start, run and override themselves.
class Together {
    static final Object lock = new Object();
    static int failed, failedBefore, sum;

    static void count() {
        for (int i = 0; i < 50; i++) {
            synchronized (lock) { sum++; }
            Thread.yield();
        }
    }

    static class Fails { static int v; static { count(); v /= v; } }
    static class Fine { static int v; static { count(); v = 50; } }
    static class First { static int x = Second.y + 1; }
    static class Second { static int y = 7; }

    static class User extends Thread {
        public void run() {
            try {
                int seen = Fails.v;
            } catch (ExceptionInInitializerError e) {
                synchronized (lock) { failed++; }
            } catch (NoClassDefFoundError e) {
                synchronized (lock) { failedBefore++; }
            }
            int both = Fine.v + First.x;
            synchronized (lock) { sum += both; }
        }
    }

    static class Twice implements Runnable {
        static int waiting, woken;
        static boolean go;

        public void run() {
            synchronized (lock) {
                synchronized (lock) {
                    waiting++;
                    lock.notifyAll();
                    try {
                        while (!go) lock.wait();
                    } catch (InterruptedException e) {
                        System.out.println("interrupted");
                    }
                    woken++;
                }
                lock.notify();
            }
            try {
                lock.notify();
            } catch (IllegalMonitorStateException e) {
                synchronized (lock) { woken += 100; }
            }
        }
    }

    static class Itself extends Thread {
        int runs;
        public void run() {
            runs++;
            if (runs < 3) run();
            super.run();
        }
    }

    static class Starts extends Thread {
        int steps;
        public void start() { steps++; super.start(); }
        public void run() { steps += 10; }
    }

    static synchronized int deep(int n) {
        if (n > 0) return deep(n - 1) * 2;
        Together.class.notifyAll();
        return 1;
    }

    public static void main(String[] arguments) throws InterruptedException {
        User[] users = new User[6];
        for (int i = 0; i < users.length; i++) (users[i] = new User()).start();
        for (User it : users) it.join();
        System.out.println(failed);
        System.out.println(failedBefore);
        System.out.println(sum);

        Thread[] twice = new Thread[4];
        for (int i = 0; i < twice.length; i++) (twice[i] = new Thread(new Twice())).start();
        synchronized (lock) {
            while (Twice.waiting < twice.length) lock.wait();
            Twice.go = true;
            lock.notifyAll();
        }
        for (Thread it : twice) it.join();
        System.out.println(Twice.woken);

        Itself itself = new Itself();
        Thread outer = new Thread(itself);
        outer.start();
        outer.join();
        System.out.println(itself.runs);
        itself.start();
        itself.join();
        System.out.println(itself.runs);
        Starts starts = new Starts();
        starts.start();
        starts.join();
        System.out.println(starts.steps);
        try {
            starts.start();
        } catch (IllegalThreadStateException e) {
            System.out.println(starts.steps);
        }
        System.out.println(deep(5));
    }
}
