// Each form of code whose verification takes more than one rule: finally, synchronized, choices before a constructor,
// wide locals, longs between other words, switches, arrays of arrays, handlers inside handlers.
class Forms {
    static int count;
    static Object lock = new Object();
    private Object[][] table = new Object[3][];
    long total;
    final Runnable action;

    Forms(boolean chosen) {
        this(chosen ? 1 : 2, chosen ? null : new Wide());
    }

    Forms(int size, Runnable action) {
        this.action = action;
        total = size > 1 ? size * 5_000_000_000L : -1L;
    }

    static int tried(int a) {
        int sum = 0;
        for (int i = 0; i < a; i++) {
            try {
                if (i == 3) continue;
                if (i == 5) return sum;
                sum += 10 / (i - 4);
            } catch (ArithmeticException e) {
                sum -= 1;
            } finally {
                count++;
            }
        }
        return sum;
    }

    static long guarded(Object first, Object second) {
        long made = 1;
        synchronized (first) {
            made <<= 3;
            synchronized (second) {
                if (made > 7) throw new IllegalStateException("seven");
                made ^= count;
            }
        }
        return made;
    }

    synchronized void add(long amount) {
        long before = total++;
        total += amount = before;
        total = total > amount ? total-- : ++total;
    }

    int chosen(int key) {
        switch (key) {
            case 1: return 5;
            case 2: key++;
            case 3: break;
            case 1000000: return chosen(key - 1);
            default: return -key;
        }
        switch (key) {
            case 3: return 7;
            case 4: return 8;
        }
        return key;
    }

    static Object swapped(Object[] all, int i, int j) {
        Object kept = all[i];
        all[i] = all[j];
        return all[j] = kept;
    }

    static char narrowed(int a, byte[] bytes, char[] chars, short[] shorts, boolean[] flags, long[] longs) {
        bytes[a & 1] += 300;
        shorts[a & 1]--;
        chars[a & 1]++;
        flags[a & 1] |= a > 4;
        longs[a & 1] *= a;
        return flags[0] ? chars[bytes[0] & 1] : (char) shorts[1];
    }

    int[][] squares(int n) {
        int[][] made = new int[n][];
        for (int i = 0; i < n; i++) {
            made[i] = new int[i];
            for (int j = 0; j < i; j++) made[i][j] += i * j;
        }
        table[0] = made;
        return made;
    }

    static Runnable picked(Object from) {
        Runnable made = from instanceof Runnable ? (Runnable) from : new Wide();
        while (made != from) {
            if (from == null) break;
            made = from instanceof Thread ? (Thread) from : made;
            from = null;
        }
        return made;
    }

    static int nested(int depth) throws InterruptedException {
        try {
            try {
                if (depth > 2) throw new InterruptedException();
                return nested(depth + 1);
            } catch (InterruptedException e) {
                if (depth == 4) throw e;
                throw new RuntimeException(e.getMessage());
            } finally {
                synchronized (lock) { count += depth; }
            }
        } catch (IllegalStateException | ArithmeticException e) {
            return e == null ? 1 : 2;
        }
    }

    static boolean compared(long a, long b, Object x, Object y, int c) {
        return a < b == c > 3 && x != y || !(a == b) ^ x == null;
    }

    class Inner {
        int seen = count;
        long both() { return total + seen; }
    }

    static class Failure extends Exception {
        final int code;
        Failure(int code) { super("failed"); this.code = code; }
    }

    void fail(int code) throws Failure {
        Inner inner = new Inner();
        if (inner.both() > code) throw new Failure(code);
        action.run();
    }

    public static void main(String[] arguments) {
        System.out.println(tried(9));
        System.out.println(new Forms(true).chosen(2));
        new Wide().run();
    }
}

class Wide implements Runnable {
    long[] kept = { 1, 2, 3 };

    public void run() {
        long a0 = 0, a1 = 1, a2 = 2, a3 = 3, a4 = 4, a5 = 5, a6 = 6, a7 = 7, a8 = 8, a9 = 9;
        long b0 = 0, b1 = 1, b2 = 2, b3 = 3, b4 = 4, b5 = 5, b6 = 6, b7 = 7, b8 = 8, b9 = 9;
        int i = 0;
        do {
            long c = a0 + b9 * i;
            a9 = c - (b0 += i);
            i += 400;
        } while (i < 2000);
        System.out.println(a0 + a1 + a2 + a3 + a4 + a5 + a6 + a7 + a8 + a9);
        System.out.println(b0 + b1 + b2 + b3 + b4 + b5 + b6 + b7 + b8 + b9);
        System.out.println(kept[i & 1] >>> i);
    }
}
