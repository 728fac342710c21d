// Strings that are joined: every kind of operand, empty and null texts, numbers at their edges, compound assignment.
class Joins {
    static String none;
    static String empty = "";
    static String field = "field";
    String own = "own";
    static int[] numbers = { 0, 1, -1, 9, 10, -10, 2147483647, -2147483648 };
    static long[] longs = { 0L, -1L, 4294967296L, -4294967296L, 9223372036854775807L, -9223372036854775808L };
    static char[] letters = { 'a', ' ', '\n', '\u00e9', '\u20ac', '\u4e2d' };
    static boolean[] truths = { true, false };
    static byte[] bytes = { 127, -128, 0 };
    static short[] shorts = { 32767, -32768, -1 };

    static String around(String text) {
        return "<" + text + ">";
    }

    static String twice(String text) {
        return text + text;
    }

    static String table(int rows, int columns) {
        String all = "";
        for (int row = 1; row <= rows; row++) {
            for (int column = 1; column <= columns; column++) all += row * column + (column < columns ? " " : ";");
        }
        return all;
    }

    static String reversed(String text) {
        String made = "";
        for (int at = text.length() - 1; at >= 0; at--) made += text.charAt(at);
        return made;
    }

    public static void main(String[] arguments) {
        int sum = 0;
        for (int n : numbers) sum += n;
        System.out.println("sum = " + sum);
        for (int n : numbers) System.out.println("int " + n);
        for (long n : longs) System.out.println("long " + n + " and " + -n);
        for (char c : letters) System.out.println("char " + c + '.');
        for (boolean b : truths) System.out.println("boolean " + b + !b);
        for (byte b : bytes) System.out.println("byte " + b);
        for (short s : shorts) System.out.println("short " + s);
        System.out.println('a' + 'b' + "" + 'a' + 'b');
        System.out.println(1 + 2 + "three" + 4 + 5);
        System.out.println(around(none));
        System.out.println(around(empty));
        System.out.println(around(field));
        System.out.println(around(around("twice")));
        System.out.println(none + none);
        System.out.println(empty + empty);
        System.out.println((empty + empty).length());
        System.out.println(twice(twice("ab")));
        System.out.println(field + new Joins().own + field.length());
        String text = "a";
        text += 1;
        text += 2L;
        text += 'c';
        text += true;
        text += none;
        text += empty;
        text += text;
        System.out.println(text);
        System.out.println(table(4, 5));
        System.out.println(reversed("a text that is read from its end"));
        System.out.println("\u00e4\u00f6".concat(" \u20ac ") + "\ud83d\ude00" + "\u4e2d");
        System.out.println("one\ntwo".concat("\nthree"));
        System.out.println(field.concat("") == field);
        System.out.println(field.concat("x") == field);
        System.out.println(empty.concat("x"));
        String[] parts = { "x", null, "", "yz" };
        String all = "[";
        for (int i = 0; i < parts.length; i++) {
            if (i > 0) all += ", ";
            all += parts[i];
        }
        System.out.println(all + "]");
    }
}
