// Recursion and calls with many arguments: longs between ints, results of each type, mutual calls, a search, a sort.
class Depths {
    static int calls;

    static int fib(int n) { return n < 2 ? n : fib(n - 1) + fib(n - 2); }
    static long power(long base, int n) { return n == 0 ? 1 : n % 2 == 0 ? power(base * base, n / 2) : base * power(base, n - 1); }
    static int ackermann(int m, int n) { calls++; return m == 0 ? n + 1 : ackermann(m - 1, n == 0 ? 1 : ackermann(m, n - 1)); }
    static boolean isEven(int n) { return n == 0 || isOdd(n - 1); }
    static boolean isOdd(int n) { return n != 0 && isEven(n - 1); }
    static long gcd(long a, long b) { return b == 0 ? a : gcd(b, a % b); }

    static long many(int a, long b, byte c, Object d, long e, char f, int[] g, boolean h, short i, long j) {
        if (a == 0) return b * 3 + c * 5 + e * 7 + f + g[0] + (h ? 11 : 13) + i * 17 + j * 19 + (d == null ? 23 : 29);
        g[0] += a;
        return many(a - 1, j, (byte) (c + 100), h ? null : g, b, (char) (f * 2), g, !h, (short) (i * 3), e) + a;
    }

    static void hanoi(int n, int[] heights, int from, int to, int over) {
        if (n == 0) return;
        hanoi(n - 1, heights, from, over, to);
        heights[from]--;
        heights[to]++;
        calls++;
        hanoi(n - 1, heights, over, to, from);
    }

    static int queens(int row, int size, int columns, int left, int right) {
        if (row == size) return 1;
        int found = 0;
        for (int free = ~(columns | left | right) & (1 << size) - 1; free != 0; free &= free - 1) {
            int bit = free & -free;
            found += queens(row + 1, size, columns | bit, (left | bit) << 1, (right | bit) >> 1);
        }
        return found;
    }

    static void sort(long[] all, int low, int high) {
        if (low >= high) return;
        long middle = all[(low + high) >>> 1];
        int i = low, j = high;
        while (i <= j) {
            while (all[i] < middle) i++;
            while (all[j] > middle) j--;
            if (i <= j) { long kept = all[i]; all[i++] = all[j]; all[j--] = kept; }
        }
        sort(all, low, j);
        sort(all, i, high);
    }

    static class Tree {
        Tree left, right;
        long key;
        Tree(long key) { this.key = key; }
        Tree with(long added) {
            if (added < key) left = left == null ? new Tree(added) : left.with(added);
            else if (added > key) right = right == null ? new Tree(added) : right.with(added);
            return this;
        }
        int depth() { return 1 + larger(left == null ? 0 : left.depth(), right == null ? 0 : right.depth()); }
        private static int larger(int a, int b) { return a > b ? a : b; }
        long sum(long times) { return key * times + (left == null ? 0 : left.sum(times + 1)) - (right == null ? 0 : right.sum(times - 1)); }
    }

    static int down(int n) { return n == 0 ? 0 : 1 + down(n - 1); }

    public static void main(String[] arguments) {
        System.out.println(fib(18));
        System.out.println(power(3, 39));
        System.out.println(power(-7, 22));
        System.out.println(ackermann(2, 6));
        System.out.println(calls);
        System.out.println(isEven(800));
        System.out.println(isOdd(801));
        System.out.println(gcd(1L << 40, 3L * (1 << 30)));
        System.out.println(many(9, 1L << 35, (byte) 3, null, -5, 'x', new int[] { 4 }, true, (short) 1000, Long.MAX_VALUE));
        int[] heights = { 9, 0, 0 };
        hanoi(9, heights, 0, 2, 1);
        System.out.println(heights[2] * 10000 + calls);
        System.out.println(queens(0, 7, 0, 0, 0));
        long[] all = new long[300];
        long value = 12345;
        Tree tree = new Tree(0);
        for (int i = 0; i < all.length; i++) {
            value = value * 6364136223846793005L + 1442695040888963407L;
            all[i] = value >> i % 50;
            tree.with(all[i]);
        }
        sort(all, 0, all.length - 1);
        for (int i = 0; i < all.length; i += 23) System.out.println(all[i]);
        System.out.println(tree.depth());
        System.out.println(tree.sum(1));
        System.out.println(down(1000));
    }
}
