// Eight threads of a million instructions each: 76,923 rounds of 13.
class Turns implements Runnable {
    static final int[] sums = new int[8];
    final int own;

    Turns(int own) { this.own = own; }

    public void run() {
        int s = own;
        for (int i = 0; i < 76923; i++) s = (s ^ i) * 31 + i;
        sums[own] = s;
    }

    public static void main(String[] arguments) throws InterruptedException {
        Thread[] all = new Thread[8];
        for (int i = 0; i < 8; i++) (all[i] = new Thread(new Turns(i))).start();
        for (Thread it : all) it.join();
        for (int sum : sums) System.out.println(sum);
    }
}
