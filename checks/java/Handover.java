// Threads that hand over by wait and notify: a box of one place, turns in a ring, a barrier, a bounded queue.
class Handover {
    static class Box {
        private long value;
        private boolean full;
        synchronized void put(long it) throws InterruptedException {
            while (full) wait();
            value = it;
            full = true;
            notifyAll();
        }
        synchronized long take() throws InterruptedException {
            while (!full) wait();
            full = false;
            notifyAll();
            return value;
        }
    }

    static class Ring implements Runnable {
        static final Object lock = new Object();
        static int turn;
        static long history;
        final int own, size;
        Ring(int own, int size) { this.own = own; this.size = size; }
        public void run() {
            try {
                for (int round = 0; round < 5; round++) {
                    synchronized (lock) {
                        while (turn != own) lock.wait();
                        history = history * 5 + own;
                        System.out.println(own);
                        turn = (turn + 1) % size;
                        lock.notifyAll();
                    }
                }
            } catch (InterruptedException e) {
                System.out.println("interrupted");
            }
        }
    }

    static class Barrier {
        final int size;
        int arrived, generation;
        Barrier(int size) { this.size = size; }
        synchronized void await() throws InterruptedException {
            int mine = generation;
            if (++arrived == size) {
                arrived = 0;
                generation++;
                notifyAll();
            } else {
                while (mine == generation) wait();
            }
        }
    }

    static class Phased extends Thread {
        static final int[] cells = new int[4];
        static final Barrier barrier = new Barrier(4);
        final int own;
        Phased(int own) { this.own = own; }
        public void run() {
            try {
                for (int phase = 0; phase < 3; phase++) {
                    int next = cells[(own + 1) % 4];
                    barrier.await();
                    cells[own] = next * 3 + own + 1;
                    barrier.await();
                }
            } catch (InterruptedException e) {
                System.out.println("interrupted");
            }
        }
    }

    public static void main(String[] arguments) throws InterruptedException {
        final Box there = new Box(), back = new Box();
        Thread squares = new Thread(new Runnable() {
            public void run() {
                try {
                    for (long it = there.take(); it >= 0; it = there.take()) back.put(it * it);
                    back.put(-1);
                } catch (InterruptedException e) {
                    System.out.println("interrupted");
                }
            }
        });
        squares.start();
        for (long it = 1; it < 3000000000L; it *= 9) {
            there.put(it);
            System.out.println(back.take());
        }
        there.put(-5);
        System.out.println(back.take());
        squares.join();

        Thread[] ring = new Thread[3];
        for (int i = ring.length - 1; i >= 0; i--) (ring[i] = new Thread(new Ring(i, 3))).start();
        for (Thread it : ring) it.join();
        System.out.println(Ring.history);

        Phased[] phased = new Phased[4];
        for (int i = 0; i < 4; i++) phased[i] = new Phased(i);
        for (Phased it : phased) it.start();
        for (Phased it : phased) it.join();
        for (int cell : Phased.cells) System.out.println(cell);
    }
}
