// Two threads that each hold a lock and want that of the other. In Same they have one priority.
class Crossed extends Thread {
    static final Object left = new Object(), right = new Object();
    final Object first, second;

    Crossed(Object first, Object second) {
        this.first = first;
        this.second = second;
    }

    public void run() {
        synchronized (first) {
            synchronized (second) {
                System.out.println("both");
            }
        }
    }

    static void race(int priority) {
        Thread low = new Crossed(left, right), high = new Crossed(right, left);
        low.setPriority(priority);
        low.start();
        high.start();
    }

    public static void main(String[] arguments) {
        race(1);
    }

    static class Same {
        public static void main(String[] arguments) {
            race(5);
        }
    }
}
