// The initialization of classes: what begins it, its order, that it comes once, and what becomes of one that fails.
class Starting {
    static int counter = say(1, "Starting");
    static final int CONSTANT = 5;
    static final String TEXT = "constant";
    static final Object lock = new Object();

    static int say(int n, String text) { System.out.println(text); return n; }

    static class Above { static int a = say(10, "Above"); static int inherited = 3; static void call() { say(0, "call"); } }
    static class Below extends Above {
        static { say(0, "Below begins"); }
        static int b = a + 1;
        static final int LIMIT = 40;
        static final int later = say(8, "later");
        { say(0, "an object"); }
        Below() { say(0, "its constructor"); }
    }
    interface Names { int N = say(4, "Names"); String FIXED = "fixed"; }
    static class Named implements Names { static int c = say(6, "Named"); }
    static class Mutual { static int m = Other.o + 1; static int get() { return m; } }
    static class Other { static int o = Mutual.get() + 10; }
    static class Seen { static int early = look(); static int value = 7; static int look() { return value; } }

    static class Failing {
        static int before = say(1, "Failing");
        static int value = 1 / (before - 1);
        static void call() { say(0, "never"); }
    }
    static class BelowFailing extends Failing { static { say(0, "never"); } static int x; }
    static class FailsByError {
        static int y = 3;
        static { if (y == 3) throw new IncompatibleClassChangeError("own"); }
    }
    static class Retried {
        static int tries;
        static int nested = fail();
        static int fail() {
            try {
                return Failing.value;
            } catch (NoClassDefFoundError e) {
                return say(77, "caught in an initializer");
            }
        }
    }

    static String attempt(int which) {
        try {
            switch (which) {
                case 0: System.out.println(Failing.value); break;
                case 1: new Failing(); break;
                case 2: Failing.call(); break;
                case 3: BelowFailing.x = 4; break;
                case 4: new BelowFailing(); break;
                case 5: System.out.println(FailsByError.y); break;
                case 6: System.out.println(FailsByError.y); break;
                case 7: new FailsByError(); break;
                case 8: System.out.println(Retried.nested); break;
                case 9: System.out.println(new Failing[3].length); break;
            }
            return "complete";
        } catch (ExceptionInInitializerError e) {
            return "failed";
        } catch (NoClassDefFoundError e) {
            return "was bad";
        } catch (LinkageError e) {
            return e.getMessage();
        }
    }

    public static void main(String[] arguments) {
        System.out.println(counter + CONSTANT);
        System.out.println(TEXT);
        Below[] none = new Below[2];
        Object literal = Below.class;
        System.out.println(Below.LIMIT + none.length);
        System.out.println(none[0] instanceof Below);
        System.out.println(Below.inherited);
        Below.call();
        System.out.println("now");
        System.out.println(Below.b);
        new Below();
        System.out.println(new Below() == literal);
        System.out.println(Names.FIXED);
        System.out.println(Named.c);
        System.out.println(Named.N);
        System.out.println(Mutual.m);
        System.out.println(Other.o);
        System.out.println(Seen.early);
        System.out.println(Seen.value);
        for (int which = 0; which < 10; which++) System.out.println(attempt(which));
        synchronized (Above.class) { Above.call(); }
    }
}
