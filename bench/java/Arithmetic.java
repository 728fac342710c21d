// Ints over one loop, then longs with shifts and a division.
class Arithmetic {
    static int ints(int n) {
        int s = 0;
        for (int i = 0; i < n; i++) s = (s ^ i) * 31 + i;
        return s;
    }

    static long longs(int n) {
        long s = 1;
        for (int i = 1; i <= n; i++) s = (s ^ i) * 31 + (s >>> 7) - (s << 3) / i;
        return s;
    }

    public static void main(String[] arguments) {
        System.out.println(ints(20000000));
        System.out.println(longs(5000000));
    }
}
