// Ints and longs at their edges: wrapping, divisions, shifts, comparisons and narrowing.
class Numbers {
    static final int[] INTS = { 0, 1, -1, 2, -2, 7, -7, 31, 32, 33, 63, 64, 65, 127, 128, -128, -129, 255, 256, 32767, 32768,
        -32768, -32769, 65535, 65536, 0x55555555, 0xAAAAAAAA, Integer.MAX_VALUE, Integer.MAX_VALUE - 1, Integer.MIN_VALUE,
        Integer.MIN_VALUE + 1 };
    static final long[] LONGS = { 0, 1, -1, 2, -3, 31, 32, 63, 64, 0xFFFFFFFFL, 0x100000000L, -0x100000000L, 0x80000000L,
        -0x80000000L, 0x7FFFFFFFFFFFFFFFL, 0x7FFFFFFF00000000L, 0x5555555555555555L, Long.MIN_VALUE, Long.MIN_VALUE + 1 };

    static long mixed(long sum, long value) {
        return (sum ^ value) * 0x100000001B3L + 1;
    }

    static int quotient(int a, int b, boolean remainder) {
        try {
            return remainder ? a % b : a / b;
        } catch (ArithmeticException e) {
            return 77;
        }
    }

    static long quotient(long a, long b, boolean remainder) {
        try {
            return remainder ? a % b : a / b;
        } catch (ArithmeticException e) {
            return 7777777777L;
        }
    }

    static long ints(int a, int b) {
        long sum = mixed(a + b, a - b);
        sum = mixed(sum, a * b);
        sum = mixed(sum, quotient(a, b, false));
        sum = mixed(sum, quotient(a, b, true));
        sum = mixed(sum, a << b);
        sum = mixed(sum, a >> b);
        sum = mixed(sum, a >>> b);
        sum = mixed(sum, (a & b) + (a | b) * 3 + (a ^ b) * 5 + ~a - -b);
        int order = (a < b ? 1 : 0) + (a <= b ? 2 : 0) + (a > b ? 4 : 0) + (a >= b ? 8 : 0) + (a == b ? 16 : 0) + (a != b ? 32 : 0);
        int signs = (a < 0 ? 1 : 0) + (a <= 0 ? 2 : 0) + (a > 0 ? 4 : 0) + (a >= 0 ? 8 : 0) + (a == 0 ? 16 : 0) + (a != 0 ? 32 : 0);
        return mixed(sum, order * 64 + signs);
    }

    static long longs(long a, long b) {
        long sum = mixed(a + b, a - b);
        sum = mixed(sum, a * b);
        sum = mixed(sum, quotient(a, b, false));
        sum = mixed(sum, quotient(a, b, true));
        sum = mixed(sum, a << b);
        sum = mixed(sum, a >> b);
        sum = mixed(sum, a >>> b);
        sum = mixed(sum, (a & b) + (a | b) * 3 + (a ^ b) * 5 + ~a - -b);
        int order = (a < b ? 1 : 0) + (a <= b ? 2 : 0) + (a > b ? 4 : 0) + (a >= b ? 8 : 0) + (a == b ? 16 : 0) + (a != b ? 32 : 0);
        return mixed(sum, order);
    }

    static void show(int a) {
        System.out.println(a);
        System.out.println((byte) a);
        System.out.println((short) a);
        System.out.println((int) (char) a);
        System.out.println((long) a << 20);
        System.out.println((int) (a * 0x123456789L));
        System.out.println(a == (byte) a);
        System.out.println(a / 3 + a % 3);
        System.out.println(a / -1);
        System.out.println(a % -1);
    }

    static void show(long a) {
        System.out.println(a);
        System.out.println((int) a);
        System.out.println((byte) a);
        System.out.println((short) a);
        System.out.println((int) (char) a);
        System.out.println(-a);
        System.out.println(a / -1);
        System.out.println(a % -1);
        System.out.println(a >>> 1);
        System.out.println(a >> 63);
        System.out.println(a / 10 + a % 10);
    }

    public static void main(String[] arguments) {
        for (int a : INTS) {
            show(a);
            long sum = 0;
            for (int b : INTS) {
                sum = mixed(sum, ints(a, b));
                System.out.println(quotient(a, b, false));
                System.out.println(quotient(a, b, true));
            }
            for (int b = -70; b <= 70; b++) sum = mixed(sum, (a << b) ^ (a >> b) * 3 ^ (a >>> b) * 7);
            System.out.println(sum);
        }
        for (long a : LONGS) {
            show(a);
            long sum = 0;
            for (long b : LONGS) {
                sum = mixed(sum, longs(a, b));
                System.out.println(quotient(a, b, false));
                System.out.println(quotient(a, b, true));
            }
            for (int b = -70; b <= 70; b++) sum = mixed(sum, (a << b) ^ (a >> b) * 3 ^ (a >>> b) * 7);
            System.out.println(sum);
        }
        int count = 0;
        for (int i = Integer.MAX_VALUE - 2; i > 0; i++) count++;
        System.out.println(count);
        long wide = 1;
        for (int i = 1; i < 40; i++) wide *= i;
        System.out.println(wide);
        int counted = 100;
        counted += 30000;
        counted -= 32768;
        System.out.println(counted);
    }
}
