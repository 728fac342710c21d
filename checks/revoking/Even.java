// The threads of Urgent, with the same priority: neither takes a lock from the other.
class Even {
    public static void main(String[] arguments) throws InterruptedException {
        Thread slow = new Urgent.Slow(), hurried = new Urgent.Hurried();
        slow.start();
        hurried.start();
        slow.join();
        hurried.join();
        System.out.println(Urgent.count);
    }
}
