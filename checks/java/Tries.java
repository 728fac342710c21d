// try, catch and finally: nested, rethrown, replaced, left by return, break and continue, across calls.
class Tries {
    static class Failure extends Exception {
        final int code;
        Failure(int code, String text) { super(text); this.code = code; }
        public String getMessage() { return code > 3 ? super.getMessage() : "few"; }
    }

    static class Deeper extends Failure { Deeper(int code) { super(code, "deeper"); } }

    static int log;
    static void note(int n) { log = log * 7 + n; }

    static int returned(int n) {
        try {
            if (n == 0) return n + 1;
            if (n == 1) throw new IllegalStateException("one");
            note(1);
            return n;
        } catch (IllegalStateException e) {
            note(2);
            return n * 10;
        } finally {
            note(3);
            n = 99;
        }
    }

    @SuppressWarnings("finally")
    static int replaced(int n) throws Failure {
        while (true) {
            try {
                if (n == 0) throw new Failure(1, "lost");
                if (n == 1) return 5;
                if (n == 2) throw new Error("lost too");
                n = 0;
            } finally {
                note(4);
                if (n < 2) break;
                if (n == 2) return 6;
                continue;
            }
        }
        return -n;
    }

    static long loops() {
        long sum = 0;
        outer:
        for (int i = 0; i < 6; i++) {
            for (int j = 0; ; j++) {
                try {
                    try {
                        if (j == 4) continue outer;
                        if (i == 4) break outer;
                        sum += 60 / (j - 2) * i;
                    } finally {
                        sum = sum * 3 + j;
                    }
                } catch (ArithmeticException e) {
                    sum -= 1000;
                } finally {
                    sum ^= i;
                }
            }
        }
        return sum;
    }

    static void fall(int depth, int bottom) throws Failure {
        try {
            if (depth == bottom) throw bottom % 2 == 0 ? new Failure(bottom, "even") : new Deeper(bottom);
            fall(depth + 1, bottom);
            note(1);
        } catch (Deeper e) {
            note(5);
            if (depth % 3 == 0) throw e;
            throw new Failure(e.code + depth, "changed");
        } finally {
            note(depth);
        }
    }

    static String across(int n) {
        try {
            try {
                fall(0, n);
            } catch (Deeper e) {
                System.out.println(e.code);
                throw e;
            } catch (Failure e) {
                System.out.println(e.code * 100);
                if (n > 4) throw new RuntimeException(e.getMessage());
                return e.getMessage();
            }
            return "none";
        } catch (RuntimeException e) {
            return e.getMessage();
        } catch (Exception e) {
            return e.getMessage() == "deeper" ? "was deeper" : e.getMessage();
        } finally {
            System.out.println(log);
        }
    }

    static Object same(Throwable it) {
        try {
            throw it;
        } catch (Error e) {
            return e;
        } catch (Throwable e) {
            return e == it ? e : null;
        }
    }

    public static void main(String[] arguments) throws Failure {
        for (int n = 0; n < 3; n++) System.out.println(returned(n));
        for (int n = 0; n < 4; n++) System.out.println(replaced(n));
        System.out.println(log);
        System.out.println(loops());
        for (int n = 0; n < 8; n++) System.out.println(across(n));
        Throwable[] all = { new Error(), new Exception("text"), new Deeper(9), new InterruptedException(), new Throwable("plain") };
        for (Throwable it : all) {
            System.out.println(same(it) == it);
            System.out.println(it.getMessage());
        }
        try {
            throw null;
        } catch (NullPointerException e) {
            System.out.println("null");
        }
        for (int i = 0; i < 2000; i++) {
            try {
                if (i % 2 == 0) throw all[3];
                log /= i % 4 - 1;
            } catch (ArithmeticException e) {
                log += 17;
            } catch (Throwable e) {
                log++;
            }
        }
        System.out.println(log);
        try {
            System.out.println(1);
        } finally {
            fall(0, 4);
        }
    }
}
