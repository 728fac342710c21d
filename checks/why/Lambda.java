// Refused for a lambda, in its second method.
class Lambda {
    static int first() {
        return 1;
    }

    public static void main(String[] args) {
        int one = first();
        Runnable task = () -> first();
        task.run();
    }
}
