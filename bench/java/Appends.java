// 10,000 appends of a piece of 8 characters, to 200 builders of 50 pieces each.
class Appends {
    public static void main(String[] arguments) {
        int length = 0;
        for (int i = 0; i < 200; i++) {
            StringBuilder builder = new StringBuilder();
            for (int k = 0; k < 50; k++) builder.append("8 units.");
            length += builder.length();
        }
        System.out.println(length);
    }
}
