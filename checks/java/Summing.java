// The first example of README: a text that the program makes.
class Summing {
    public static void main(String[] arguments) {
        int sum = 0;
        for (int i = 1; i <= 10; i++) sum += i;
        System.out.println("sum = " + sum);
    }
}
