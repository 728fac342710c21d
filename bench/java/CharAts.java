// A loop over the characters of a text of 1,000, which was made.
class CharAts {
    public static void main(String[] arguments) {
        StringBuilder builder = new StringBuilder();
        for (int i = 0; i < 20; i++) builder.append("a piece of fifty characters, twenty times in a row");
        String text = builder.toString();
        int spaces = 0;
        for (int at = 0; at < text.length(); at++) if (text.charAt(at) == ' ') spaces++;
        System.out.println(spaces);
    }
}
