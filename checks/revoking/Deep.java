// Monitors inside each other: as many as a section can have, and in More one more.
class Deep {
    static int entered;

    static void enter(int more) {
        if (more == 0) return;
        synchronized (new Object()) {
            entered++;
            enter(more - 1);
        }
    }

    public static void main(String[] arguments) {
        enter(255);
        System.out.println(entered);
    }

    static class More {
        public static void main(String[] arguments) {
            enter(256);
            System.out.println(entered);
        }
    }
}
