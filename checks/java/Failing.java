// Initializations that fail, in every place where one begins: below a class that failed, in another initialization, of an
// interface, of an exception, by an error of the program's own, of a class that uses itself meanwhile.
class Failing {
    static int zero;

    static class Above { static int v = 1 / zero; }
    static class Below extends Above { static int w = 4; static void call() {} }
    static class Outer { static int q = Inner.r; }
    static class Inner { static int r = 5 % zero; }
    interface Bad { Object MADE = fail(); }
    static Object fail() { throw new IllegalStateException("made"); }
    static class Implements implements Bad { static int k = 3; }
    static class Thrown extends RuntimeException {
        static int z = 3 / zero;
        Thrown(String text) { super(text); }
    }
    static class Own extends Error {}
    static class ThrowsOwn {
        static int a = call();
        static int call() { throw new Own(); }
    }
    static class Self {
        static int a = 3, b = call();
        Self() { System.out.println(a); }
        static int call() {
            try {
                return Self.a / zero;
            } finally {
                new Self();
            }
        }
    }
    static class Checked {
        static {
            try {
                throw new Exception("checked");
            } catch (Exception e) {
                System.out.println(e.getMessage());
                if (zero == 0) throw new RuntimeException("from a handler");
            }
        }
        static synchronized void call() {}
    }

    static void use(int which) {
        switch (which) {
            case 0: Below.call(); break;
            case 1: new Above(); break;
            case 2: Below.w = 3; break;
            case 3: new Below(); break;
            case 4: System.out.println(Outer.q); break;
            case 5: System.out.println(Inner.r); break;
            case 6: System.out.println(Outer.q); break;
            case 7: System.out.println(Implements.k); break;
            case 8: System.out.println(Bad.MADE == null); break;
            case 9: System.out.println(Implements.MADE == null); break;
            case 10: new Implements(); break;
            case 11: throw new Thrown("text");
            case 12: throw new Thrown("text");
            case 13:
                try {
                    throw new IllegalStateException("passes");
                } catch (Thrown e) {
                    System.out.println("never");
                }
                break;
            case 14: System.out.println(ThrowsOwn.a); break;
            case 15: ThrowsOwn.call(); break;
            case 16: new Self(); break;
            case 17: new Self(); break;
            case 18: Checked.call(); break;
            case 19: Checked.call(); break;
            default:
                Object made = new Checked[1];
                System.out.println(made instanceof Checked[]);
                System.out.println(made instanceof Above[]);
        }
        System.out.println("complete");
    }

    public static synchronized void main(String[] arguments) {
        for (int which = 0; which < 21; which++) {
            System.out.println(which);
            try {
                use(which);
            } catch (ExceptionInInitializerError e) {
                System.out.println("failed");
                System.out.println(e.getMessage());
            } catch (NoClassDefFoundError e) {
                System.out.println("failed before");
            } catch (Own e) {
                System.out.println("its own error");
            } catch (RuntimeException e) {
                System.out.println(e.getMessage());
            }
        }
        Failing.class.notifyAll();
        throw new Thrown("uncaught");
    }
}
