// StringBuilder: each append, its length and its text at any time, one builder in two hands, and texts that stay as they were.
class Builders {
    static StringBuilder shared = new StringBuilder();

    static StringBuilder dots(StringBuilder builder, int count) {
        for (int i = 0; i < count; i++) builder.append('.');
        return builder;
    }

    static String digits(long number, int base) {
        StringBuilder builder = new StringBuilder();
        do {
            int digit = (int) (number % base);
            builder.append((char) (digit < 10 ? '0' + digit : 'a' + digit - 10));
            number /= base;
        } while (number != 0);
        String backwards = builder.toString();
        StringBuilder forwards = new StringBuilder();
        for (int at = backwards.length() - 1; at >= 0; at--) forwards.append(backwards.charAt(at));
        return forwards.toString();
    }

    public static void main(String[] arguments) {
        StringBuilder builder = new StringBuilder();
        System.out.println(builder.length());
        System.out.println(builder.toString());
        System.out.println(builder.append(1).append(-2L).append('c').append(true).append("text").append((String) null) == builder);
        System.out.println(builder.toString());
        System.out.println(builder.length());
        String before = builder.toString();
        builder.append(before).append(false);
        System.out.println(before);
        System.out.println(builder.toString());
        System.out.println(builder.toString() == builder.toString());
        System.out.println(builder.toString().equals(builder.toString()));
        StringBuilder other = new StringBuilder("begins with ");
        System.out.println(other.append(other.length()).toString());
        StringBuilder same = other;
        same.append('!');
        System.out.println(other.toString());
        System.out.println(new StringBuilder("").length());
        System.out.println(dots(dots(new StringBuilder("a"), 3).append('b'), 2).toString());
        System.out.println(digits(255, 16));
        System.out.println(digits(9223372036854775807L, 2));
        System.out.println(digits(0, 10));
        shared.append("in a static field");
        System.out.println(shared.toString());
        StringBuilder[] many = { new StringBuilder("x"), new StringBuilder("y") };
        for (StringBuilder one : many) one.append(many.length);
        System.out.println(many[0].toString() + many[1].toString());
        Object object = builder;
        System.out.println(object instanceof StringBuilder);
        System.out.println((Object) many instanceof StringBuilder[]);
        System.out.println(((StringBuilder) object).length() == builder.length());
        String absent = null;
        try {
            new StringBuilder(absent);
        } catch (NullPointerException e) {
            System.out.println("begins with nothing");
        }
        StringBuilder none = null;
        try {
            none.append('x');
        } catch (NullPointerException e) {
            System.out.println("no builder");
        }
        try {
            System.out.println(((StringBuilder) (Object) "text").length());
        } catch (ClassCastException e) {
            System.out.println("a text is no builder");
        }
    }
}
