// A million printed lines.
class Lines {
    public static void main(String[] arguments) {
        for (int i = 0; i < 1000000; i++) System.out.println(i * 1009);
    }
}
