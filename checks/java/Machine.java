// Each exception that the machine makes, caught where it is thrown, in a caller, by a superclass, and behind effects.
class Machine implements Runnable {
    static int effects;
    int field = 1;
    long large;
    Machine next;

    static int effect(int result) { effects = effects * 3 + result; return result; }
    public void run() {}
    synchronized void held() { effects++; }

    static void make(int which) throws Throwable {
        Machine none = null;
        Runnable nothing = null;
        int[] ints = null, few = new int[2];
        long[] longs = new long[1];
        byte[] bytes = { 1 };
        boolean[] flags = { true };
        char[] chars = { 'c' };
        short[] shorts = { 1 };
        Object[] texts = new String[2], things = { texts, few };
        int zero = effect(0);
        switch (which) {
            case 0: effect(effect(5) / zero); break;
            case 1: effect(effect(6) % zero); break;
            case 2: longs[0] = effect(7) / (long) zero; break;
            case 3: longs[0] %= longs[0]; break;
            case 4: effect(none.field); break;
            case 5: none.field = effect(1); break;
            case 6: none.large = effect(2); break;
            case 7: none.run(); break;
            case 8: nothing.run(); break;
            case 9: none.held(); break;
            case 10: effect(ints.length); break;
            case 11: effect(ints[effect(1)]); break;
            case 12: ints[effect(-1)] = effect(3); break;
            case 13: synchronized (nothing) { effect(4); } break;
            case 14: throw (IllegalStateException) (Object) none;
            case 15: effect(few[effect(2)]); break;
            case 16: few[effect(-1)] = effect(1); break;
            case 17: effect((int) longs[Integer.MIN_VALUE]); break;
            case 18: longs[1] = effect(1); break;
            case 19: effect(bytes[Integer.MAX_VALUE]); break;
            case 20: flags[1] = effect(1) == 1; break;
            case 21: chars[zero - 1]++; break;
            case 22: shorts[few.length] += effect(1); break;
            case 23: texts[2] = "text"; break;
            case 24: texts[effect(1)] = things[effect(1)]; break;
            case 25: texts[1] = new Machine(); break;
            case 26: texts[3] = new Machine(); break;
            case 27: effect(new int[effect(-1)].length); break;
            case 28: effect(new Machine[effect(-2)].length); break;
            case 29: effect(new long[Integer.MIN_VALUE][].length); break;
            case 30: effect(((String[]) things).length); break;
            case 31: effect(((Machine) things[0]).field); break;
            case 32: effect(((long[]) things[1]).length); break;
            case 33: ((Runnable) things[1]).run(); break;
            case 34: new Object().notify(); break;
            case 35: new Machine().wait(); break;
            case 36: things.notifyAll(); break;
            case 37: Thread.currentThread().setPriority(effect(11)); break;
            case 38: new Thread().setPriority(0); break;
            case 39: Thread.currentThread().start(); break;
            case 40: new Machine().next.next.next = null; break;
            case 41: effect(none.next.next.field); break;
            case 42: things[0] = things; ((Object[]) things[0])[1] = null; ((int[]) things[1])[0] = 1; break;
            case 43: ((Thread) null).start(); break;
            case 44: ((Object) none).equals(none); break;
            default: effect(1);
        }
        System.out.println("no exception");
    }

    static int kind(Throwable it) {
        if (it instanceof ArithmeticException) return 1;
        if (it instanceof NullPointerException) return 2;
        if (it instanceof ArrayIndexOutOfBoundsException) return 3;
        if (it instanceof ArrayStoreException) return 4;
        if (it instanceof NegativeArraySizeException) return 5;
        if (it instanceof ClassCastException) return 6;
        if (it instanceof IllegalMonitorStateException) return 7;
        if (it instanceof IllegalThreadStateException) return 8;
        if (it instanceof IllegalArgumentException) return 9;
        return 10;
    }

    static String near(int which) throws Throwable {
        try {
            make(which);
            return "complete";
        } catch (ArithmeticException e) {
            return "arithmetic";
        } catch (IndexOutOfBoundsException e) {
            return "index";
        } catch (NullPointerException | ArrayStoreException e) {
            return e instanceof ArrayStoreException ? "store" : "null";
        } catch (IllegalArgumentException e) {
            return e instanceof IllegalThreadStateException ? "thread state" : "argument";
        }
    }

    public static void main(String[] arguments) {
        for (int which = 0; which < 46; which++) {
            System.out.println(which);
            try {
                System.out.println(near(which));
            } catch (RuntimeException e) {
                System.out.println(kind(e));
            } catch (Throwable e) {
                System.out.println("other");
            }
            System.out.println(effects);
        }
    }
}
