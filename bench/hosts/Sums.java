// Seven threads, each of which adds numbers up in variables of its own.
class Sums extends Thread {
    static final int THREADS = 7, ROUNDS = 8000000;
    final int first;
    int sum;

    Sums(int first) {
        this.first = first;
    }

    public void run() {
        int sum = first;
        for (int i = 0; i < ROUNDS; i++) {
            sum += i ^ (sum << 3);
        }
        this.sum = sum;
    }

    public static void main(String[] arguments) throws InterruptedException {
        Sums[] threads = new Sums[THREADS];
        for (int i = 0; i < THREADS; i++) {
            threads[i] = new Sums(i);
            threads[i].start();
        }
        for (Sums thread : threads) {
            thread.join();
            System.out.println(thread.sum);
        }
    }
}
