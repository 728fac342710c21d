// Texts that are compared and indexed, pairs of surrogates and halves of them, and what is thrown for an index outside.
class Characters {
    static int count(String text, char wanted) {
        int found = 0;
        for (int at = 0; at < text.length(); at++) if (text.charAt(at) == wanted) found++;
        return found;
    }

    static boolean isPalindrome(String text) {
        for (int low = 0, high = text.length() - 1; low < high; low++, high--)
            if (text.charAt(low) != text.charAt(high)) return false;
        return true;
    }

    static String at(String text, int index) {
        try {
            return "char " + text.charAt(index);
        } catch (IndexOutOfBoundsException e) {
            return "outside";
        }
    }

    static String unit(int number) {
        return "" + (char) number;
    }

    static boolean same(Object one, Object other) {
        return one.equals(other);
    }

    public static void main(String[] arguments) {
        String made = "lev" + unit('e') + 'l';
        System.out.println(made.length());
        System.out.println(count("mississippi", 's'));
        System.out.println(isPalindrome(made));
        System.out.println(isPalindrome(made + 's'));
        for (int index = -1; index < 3; index++) System.out.println(at("ab", index));
        for (int index = -1; index < 3; index++) System.out.println(at(unit('x') + unit('y'), index));
        System.out.println(at("", 0));
        System.out.println(at("ab", -2147483648));
        System.out.println(at("ab", 2147483647));
        System.out.println(made.equals("level"));
        System.out.println("level".equals(made));
        System.out.println(made.equals(made));
        System.out.println(made == "level");
        System.out.println(made.equals("Level"));
        System.out.println(made.equals("levels"));
        System.out.println(made.equals("leve"));
        System.out.println(made.equals(null));
        System.out.println(same(made, "lev" + "el"));
        System.out.println(same(made, new Object()));
        System.out.println(same(new Object(), made));
        System.out.println("".equals(unit('x')));
        System.out.println((int) unit(0).charAt(0));
        System.out.println(unit(0).length());
        String smile = unit(0xd83d) + unit(0xde00);
        System.out.println(smile);
        System.out.println(smile.length());
        System.out.println((int) smile.charAt(0));
        System.out.println(smile.equals("\ud83d\ude00"));
        System.out.println(unit(0xd83d));
        System.out.println(unit(0xde00));
        System.out.println(unit(0xde00) + unit(0xd83d));
        System.out.println("x" + unit(0xd83d) + "y" + unit(0xde00) + unit(0xdfff));
        System.out.println("at the end " + unit(0xdbff));
        System.out.println(unit(0xd800) + unit(0xd83d) + unit(0xde00));
        System.out.println(unit(0xffff) + unit(0xe000) + unit(0x7ff) + unit(0x800) + unit(0x7f) + unit(0x80));
        String absent = null;
        try {
            System.out.println(absent.length());
        } catch (NullPointerException e) {
            System.out.println("no text");
        }
        try {
            System.out.println("text".concat(absent));
        } catch (NullPointerException e) {
            System.out.println("nothing to join");
        }
        System.out.println("x".charAt(1));
    }
}
