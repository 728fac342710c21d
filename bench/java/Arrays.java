// A sieve, twice, and a product of matrices of longs.
class Arrays {
    static int sieve(boolean[] crossed, int most) {
        int count = 0;
        for (int i = 2; i <= most; i++) crossed[i] = false;
        for (int i = 2; i <= most; i++) {
            if (crossed[i]) continue;
            count++;
            for (int j = i + i; j <= most; j += i) crossed[j] = true;
        }
        return count;
    }

    static long[][] matrix(int n) {
        long[][] made = new long[n][];
        for (int i = 0; i < n; i++) {
            made[i] = new long[n];
            for (int j = 0; j < n; j++) made[i][j] = i * 7 - j;
        }
        return made;
    }

    static long product(int n) {
        long[][] a = matrix(n), b = matrix(n), c = matrix(n);
        long trace = 0;
        for (int i = 0; i < n; i++) {
            for (int j = 0; j < n; j++) {
                long sum = 0;
                for (int k = 0; k < n; k++) sum += a[i][k] * b[k][j];
                c[i][j] = sum;
            }
            trace += c[i][i];
        }
        return trace;
    }

    public static void main(String[] arguments) {
        boolean[] crossed = new boolean[3000001];
        System.out.println(sieve(crossed, 3000000));
        System.out.println(sieve(crossed, 3000000));
        System.out.println(product(120));
    }
}
