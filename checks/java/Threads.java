// Thread itself: start, a second start, join, priorities, targets, run without start, subclasses, the current thread.
class Threads {
    static int count;
    static final Object lock = new Object();

    static class Adder extends Thread {
        final int times;
        int seen;
        Adder(int times) { this.times = times; }
        Adder(Runnable target) { super(target); times = 1; }
        public void run() {
            super.run();
            for (int i = 0; i < times; i++) synchronized (lock) { count++; seen++; }
        }
    }

    static class Counted implements Runnable {
        Thread by;
        int priority;
        public void run() { by = Thread.currentThread(); priority = by.getPriority(); }
    }

    static class Failing implements Runnable {
        public void run() {
            try {
                synchronized (lock) { throw new IllegalStateException("in a thread"); }
            } catch (IllegalStateException e) {
                synchronized (lock) { count += 1000; }
            }
        }
    }

    static class Static {
        static int began;
        static synchronized void begin() { began++; }
        static { for (int i = 0; i < 100; i++) count(); }
        static void count() { synchronized (lock) { count++; } }
    }

    static String again(Thread it) {
        try {
            it.start();
            return "started";
        } catch (IllegalThreadStateException e) {
            return "a second start";
        }
    }

    static String priority(Thread it, int to) {
        try {
            it.setPriority(to);
            return "set";
        } catch (IllegalArgumentException e) {
            return "refused";
        }
    }

    public static void main(String[] arguments) throws InterruptedException {
        Thread self = Thread.currentThread();
        System.out.println(self.getPriority());
        System.out.println(self == Thread.currentThread());
        System.out.println(again(self));
        Adder adder = new Adder(300), twin = new Adder(200);
        System.out.println(again(adder));
        System.out.println(again(adder));
        twin.start();
        adder.join();
        System.out.println(again(adder));
        System.out.println(adder.seen);
        twin.join();
        twin.join();
        System.out.println(count);
        new Thread().join();
        Thread empty = new Thread((Runnable) null);
        empty.run();
        empty.start();
        empty.join();

        for (int to = -1; to < 13; to += 2) System.out.println(priority(empty == null ? self : adder, to));
        System.out.println(priority(self, 3));
        Counted counted = new Counted();
        Thread inherits = new Thread(counted), changed = new Thread(counted), outer = new Thread(new Adder(changed));
        System.out.println(inherits.getPriority());
        inherits.run();
        System.out.println(counted.by == self);
        System.out.println(counted.priority);
        inherits.start();
        inherits.join();
        System.out.println(counted.by == inherits);
        System.out.println(counted.priority);
        changed.setPriority(8);
        System.out.println(changed.getPriority());
        outer.setPriority(10);
        outer.start();
        outer.join();
        System.out.println(counted.by == outer);
        System.out.println(counted.priority);
        System.out.println(count);
        System.out.println(again(changed));
        changed.join();
        System.out.println(counted.by == changed);
        System.out.println(counted.priority);

        Thread[] many = new Thread[12];
        for (int i = 0; i < many.length; i++) {
            many[i] = i % 3 == 0 ? new Thread(new Failing()) : i % 3 == 1 ? new Adder(50) : new Thread(new Runnable() {
                public void run() { Static.begin(); }
            });
            many[i].start();
            Thread.yield();
        }
        for (Thread it : many) it.join();
        System.out.println(count);
        System.out.println(Static.began);
    }
}
