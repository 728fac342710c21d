// A ring of 1,000 nodes, whose int and long are read, added to and written.
class Fields {
    static class Node {
        int small;
        long large;
        Node next;
    }

    public static void main(String[] arguments) {
        Node first = new Node(), last = first;
        for (int i = 1; i < 1000; i++) {
            Node made = new Node();
            made.next = first;
            last.next = made;
            last = made;
        }
        last.next = first;
        Node at = first;
        for (int i = 0; i < 3000000; i++) {
            at.small += i;
            at.large += at.small;
            at = at.next;
        }
        System.out.println(at.small);
        System.out.println(at.large);
    }
}
