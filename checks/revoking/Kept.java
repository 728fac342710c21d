// A slow thread does under a lock what can't be taken back, so that an urgent thread has to wait for the lock. Each class
// here that has a main is a program.
class Kept {
    static final Object lock = new Object();
    static int count;

    static class Slow extends Thread {
        void act() throws InterruptedException { }

        public void run() {
            synchronized (lock) {
                try {
                    act();
                } catch (InterruptedException e) {
                    count = -1;
                }
                for (int i = 0; i < 1000; i++) count++;
            }
        }
    }

    static class Hurried extends Thread {
        public void run() {
            synchronized (lock) {
                System.out.println(count);
            }
        }
    }

    // Starts the threads as 2, 3 and, where there is another one, 4.
    static void race(Thread slow, Thread other) throws InterruptedException {
        Thread hurried = new Hurried();
        slow.setPriority(1);
        hurried.setPriority(10);
        slow.start();
        hurried.start();
        if (other != null) other.start();
        slow.join();
        hurried.join();
        if (other != null) other.join();
    }

    static class Prints extends Slow {
        void act() {
            System.out.println("slow");
        }

        public static void main(String[] arguments) throws InterruptedException {
            race(new Prints(), null);
        }
    }

    static class Notifies extends Slow {
        void act() {
            lock.notify();
        }

        public static void main(String[] arguments) throws InterruptedException {
            race(new Notifies(), null);
        }
    }

    static class Waits extends Slow {
        static final Object bell = new Object();

        void act() throws InterruptedException {
            synchronized (bell) {
                bell.wait();
            }
        }

        static class Rings extends Thread {
            public void run() {
                synchronized (bell) {
                    bell.notify();
                }
            }
        }

        public static void main(String[] arguments) throws InterruptedException {
            race(new Waits(), new Rings());
        }
    }

    static class Starts extends Slow {
        void act() {
            new Thread().start();
        }

        public static void main(String[] arguments) throws InterruptedException {
            race(new Starts(), null);
        }
    }

    static class Initializes extends Slow {
        static class Fresh {
            static int number = 7;
        }

        void act() {
            Fresh.number++;
        }

        public static void main(String[] arguments) throws InterruptedException {
            race(new Initializes(), null);
        }
    }

    static class IsRead extends Slow {
        static class Reads extends Thread {
            public void run() {
                System.out.println(count > 0);
            }
        }

        public static void main(String[] arguments) throws InterruptedException {
            race(new IsRead(), new Reads());
        }
    }

    static class IsOverwritten extends Slow {
        static class Writes extends Thread {
            public void run() {
                count = 5000;
            }
        }

        public static void main(String[] arguments) throws InterruptedException {
            race(new IsOverwritten(), new Writes());
        }
    }
}
