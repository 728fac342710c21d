// Seven threads, each of which reads an array of its own again and again.
class Loads extends Thread {
    static final int THREADS = 7, ROUNDS = 1500, LENGTH = 1000;
    final int[] numbers = new int[LENGTH];
    int sum;

    Loads(int first) {
        for (int i = 0; i < LENGTH; i++) {
            numbers[i] = first + i;
        }
    }

    public void run() {
        int[] numbers = this.numbers;
        int sum = 0;
        for (int round = 0; round < ROUNDS; round++) {
            for (int i = 0; i < LENGTH; i++) {
                sum += numbers[i];
            }
        }
        this.sum = sum;
    }

    public static void main(String[] arguments) throws InterruptedException {
        Loads[] threads = new Loads[THREADS];
        for (int i = 0; i < THREADS; i++) {
            threads[i] = new Loads(i);
            threads[i].start();
        }
        for (Loads thread : threads) {
            thread.join();
            System.out.println(thread.sum);
        }
    }
}
