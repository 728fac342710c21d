// A static recursion, and a method of an interface that two classes have, called in turn.
class Calls {
    interface Step { int next(int n); }
    static class Adds implements Step { public int next(int n) { return n + 3; } }
    static class Doubles implements Step { public int next(int n) { return n * 2; } }

    static int fib(int n) {
        return n < 2 ? n : fib(n - 1) + fib(n - 2);
    }

    public static void main(String[] arguments) {
        System.out.println(fib(27));
        Step even = new Adds(), odd = new Doubles();
        int n = 1;
        for (int i = 0; i < 1000000; i++) n = ((i & 1) == 0 ? even : odd).next(n);
        System.out.println(n);
    }
}
