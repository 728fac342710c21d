// Switches, loops, labels and conditions in every form that javac has for them.
class Choices {
    static int dense(int n) {
        switch (n) {
            case -2: return 1;
            case -1: return 2;
            case 0: n = 9;
            case 1: return n + 3;
            case 3: break;
            default: return -n;
        }
        return 100;
    }

    static int sparse(int n) {
        int sum = 0;
        switch (n) {
            case Integer.MIN_VALUE: sum++;
            case -1000: sum += 10; break;
            case 0: sum += 100;
            default: sum += 1000;
            case 70000: sum += 10000; break;
            case Integer.MAX_VALUE: sum = 5;
        }
        return sum;
    }

    static int edges(int n) {
        switch (n) {
            case Integer.MAX_VALUE - 1: return 1;
            case Integer.MAX_VALUE: return 2;
            case Integer.MAX_VALUE - 2: return 3;
        }
        switch (n) {
            case Integer.MIN_VALUE: return 4;
            case Integer.MIN_VALUE + 1: return 5;
            case Integer.MIN_VALUE + 2: return 6;
            default: return 7;
        }
    }

    static int letters(char c) {
        switch (c) {
            case 'a': case 'e': case 'i': case 'o': case 'u': return 1;
            case '\uffff': return 2;
            default: return c >= '0' && c <= '9' ? c - '0' : c == 'y' || c == 'Y' ? 26 : -1;
        }
    }

    static int primes(int most) {
        int count = 0;
        candidates:
        for (int n = 2; n <= most; n++) {
            for (int d = 2; d * d <= n; d++) {
                if (n % d == 0) continue candidates;
            }
            if (++count == 30) break candidates;
        }
        return count;
    }

    static int steps(long n) {
        int steps = 0;
        do {
            n = (n & 1) == 0 ? n >> 1 : 3 * n + 1;
            steps++;
        } while (n != 1);
        return steps;
    }

    static boolean test(boolean a, boolean b, Object c) {
        boolean all = a && b || c != null && !a;
        boolean both = a & b | c == null ^ a;
        return all == both ? !all : a != b;
    }

    static int seen;
    static boolean sees(int n) { seen = seen * 10 + n; return n % 2 == 0; }

    public static void main(String[] arguments) {
        for (int n = -4; n < 6; n++) System.out.println(dense(n));
        int[] keys = { Integer.MIN_VALUE, Integer.MIN_VALUE + 1, Integer.MIN_VALUE + 2, -1001, -1000, -999, -1, 0, 1, 69999, 70000,
            70001, Integer.MAX_VALUE - 2, Integer.MAX_VALUE - 1, Integer.MAX_VALUE };
        for (int key : keys) {
            System.out.println(dense(key));
            System.out.println(sparse(key));
            System.out.println(edges(key));
        }
        for (char c = 'Z'; c < 'z'; c += 3) System.out.println(letters(c));
        System.out.println(letters('7') + letters('\uffff') * 100 + letters('\0'));
        System.out.println(primes(50));
        System.out.println(primes(100000));
        System.out.println(steps(27));
        System.out.println(steps(837799));
        for (int i = 0; i < 8; i++) System.out.println(test((i & 1) != 0, (i & 2) != 0, i > 3 ? "" : null));
        boolean first = sees(1) && sees(2) || sees(4) && (sees(3) | sees(6));
        System.out.println(first);
        System.out.println(seen);
        int a = 5, b = a++ + ++a * (a = 3) - a--;
        System.out.println(a);
        System.out.println(b);
        long c = b, d = c++ * (c += 4) >> (a <<= 1);
        System.out.println(c);
        System.out.println(d);
        while (true) {
            if (a-- < 0) break;
            if (a % 2 == 0) continue;
            System.out.println(a);
        }
    }
}
