// Bytes, chars, shorts and booleans: what a field, a static field, an element, a parameter and a result keep of an int.
class Narrow {
    byte small = (byte) 200;
    short middle = (short) 40000;
    char letter = (char) -1;
    boolean flag;
    long large = 1L << 40;
    static byte kept;
    static short keptShort;
    static char keptChar;
    static long keptLong = Long.MIN_VALUE;
    static final byte CONSTANT = -128;
    static final char LETTER = '\u00e9';
    static final long LARGE = 0x123456789ABCDEFL;

    static byte toByte(int a) { return (byte) a; }
    static short toShort(long a) { return (short) a; }
    static char toChar(int a) { return (char) a; }
    static boolean isOdd(int a) { return (a & 1) != 0; }
    static int sum(byte a, short b, char c, boolean d, long e) { return a + b + c + (d ? 1 : 0) + (int) (e >> 3); }

    void step(int by) {
        small += by;
        middle += by * 100;
        letter -= by;
        flag ^= isOdd(by);
        large = large * by + small;
        kept++;
        keptShort -= by;
        keptChar += by;
        keptLong += by;
    }

    void show() {
        System.out.println(small);
        System.out.println(middle);
        System.out.println((int) letter);
        System.out.println(flag);
        System.out.println(large);
        System.out.println(kept);
        System.out.println(keptShort);
        System.out.println((int) keptChar);
        System.out.println(keptLong);
    }

    static void arrays() {
        byte[] bytes = { 1, -1, 127, -128 };
        short[] shorts = { 1, -1, 32767, -32768 };
        char[] chars = { 'a', '\u007f', '\uffff', 0 };
        boolean[] flags = { true, false, true, false };
        int[] ints = { 1, -1, Integer.MAX_VALUE, Integer.MIN_VALUE };
        long[] longs = { 1, -1, Long.MAX_VALUE, Long.MIN_VALUE };
        for (int i = 0; i < 4; i++) {
            bytes[i]++;
            shorts[i]--;
            chars[i] += 70000;
            flags[i] = !flags[i];
            ints[i] <<= i + 1;
            longs[i] = longs[i] / 3 + bytes[i];
            System.out.println(bytes[i]);
            System.out.println(shorts[i]);
            System.out.println((int) chars[i]);
            System.out.println(flags[i]);
            System.out.println(ints[i]--);
            System.out.println(ints[i]);
            System.out.println(longs[i]);
        }
        bytes[0] = (byte) shorts[3];
        bytes[1] |= 0x70;
        chars[2] = (char) bytes[1];
        System.out.println(bytes[0]);
        System.out.println(bytes[1]);
        System.out.println((int) chars[2]);
        int place = 0;
        ints[place++] = ints[place] + place++;
        System.out.println(ints[0]);
        System.out.println(place);
    }

    public static void main(String[] arguments) {
        Narrow some = new Narrow(), other = new Narrow();
        some.show();
        for (int by = -3; by < 300; by += 50) {
            some.step(by);
            some.show();
        }
        other.show();
        arrays();
        for (int a = -70000; a <= 70000; a += 17500) {
            System.out.println(toByte(a));
            System.out.println(toShort(a * 3L));
            System.out.println((int) toChar(a));
            System.out.println(isOdd(a / 3));
            System.out.println(sum((byte) a, (short) a, (char) a, a > 0, a * 100000L));
        }
        System.out.println(CONSTANT + LETTER);
        System.out.println(LARGE);
        System.out.println(LETTER);
        System.out.println('\n' == 10 ? 'y' : 'n');
        System.out.println((char) (LETTER + 1));
        System.out.println('\u20ac');
    }
}
