// Refused for a method that the built-in class String doesn't have.
class Upper {
    public static void main(String[] args) {
        System.out.println("a".toUpperCase());
    }
}
