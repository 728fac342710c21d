// Throws through two frames into a handler, every second one of the machine.
class Exceptions {
    static final IllegalStateException kept = new IllegalStateException();

    static int inner(int n, int zero) {
        if ((n & 1) == 0) throw kept;
        return n / zero;
    }

    static int outer(int n, int zero) {
        return inner(n, zero) + 1;
    }

    public static void main(String[] arguments) {
        int states = 0, divisions = 0;
        for (int i = 0; i < 200000; i++) {
            try {
                outer(i, 0);
            } catch (IllegalStateException e) {
                states++;
            } catch (ArithmeticException e) {
                divisions += i;
            }
        }
        System.out.println(states);
        System.out.println(divisions);
    }
}
