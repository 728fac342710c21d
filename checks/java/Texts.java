// String and class literals: one object for one text, printing, comparing, passing, class literals as objects and monitors.
class Texts {
    static final String CONSTANT = "a" + "b" + 1 + 'c' + true + 2L;
    static String variable = "first";
    static String unset;
    static Object kept = "kept";
    String own = CONSTANT;

    static class Other {
        static final String SAME = "first";
        static String sameLater() { return "ab1ctrue2"; }
    }

    static String chosen(int n) {
        switch (n) {
            case 0: return null;
            case 1: return "";
            case 2: return "two";
            default: return n < 0 ? "below" : "above";
        }
    }

    static int at(String[] all, String wanted) {
        for (int i = 0; i < all.length; i++) if (all[i] == wanted) return i;
        return -1;
    }

    public static void main(String[] arguments) {
        System.out.println(CONSTANT);
        System.out.println(variable);
        System.out.println(unset);
        System.out.println((String) kept);
        System.out.println((String) null);
        System.out.println();
        System.out.println("");
        System.out.println(" spaces and\ttab, \"quotes\" and \\ ");
        System.out.println("two\nlines");
        System.out.println("\u00e4\u00f6 \u20ac \ud83d\ude00 \u4e2d");
        System.out.println(variable == Other.SAME);
        System.out.println(CONSTANT == Other.sameLater());
        System.out.println(new Texts().own == "ab1ctrue2");
        System.out.println("first".equals(variable));
        System.out.println(variable.equals("second"));
        System.out.println(variable.equals(null));
        System.out.println(kept.equals("kept"));
        for (int i = -1; i < 5; i++) System.out.println(chosen(i));
        String[] all = { "one", "two", null, "four", variable };
        System.out.println(at(all, "two"));
        System.out.println(at(all, null));
        System.out.println(at(all, "first"));
        System.out.println(at(all, "kept"));
        Object[] mixed = { "text", Texts.class, new int[2], all, null };
        for (Object it : mixed) {
            System.out.println(it instanceof String);
            System.out.println(it instanceof Class);
            System.out.println(it instanceof Object[]);
            System.out.println(it instanceof int[]);
        }
        System.out.println(Texts.class == mixed[1]);
        System.out.println((Object) Texts.class == Other.class);
        System.out.println((Object) String.class == Object.class);
        System.out.println((Object) Thread.class == Thread.class);
        System.out.println(String.class.equals(mixed[0]));
        synchronized (Texts.class) {
            synchronized ("text") {
                System.out.println((String) mixed[0]);
            }
        }
        System.out.println(arguments.length);
    }
}
