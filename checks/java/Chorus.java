// Threads that join strings under a lock, each its own and one that all of them share.
class Chorus extends Thread {
    static final Object lock = new Object();
    static StringBuilder all = new StringBuilder();
    static String letters = "";
    final int number;
    String own = "";

    Chorus(int number) {
        this.number = number;
    }

    public void run() {
        for (int i = 0; i < 5; i++) {
            own += number + ":" + i + " ";
            synchronized (lock) {
                all.append(number);
                letters = letters + (char) ('a' + number);
            }
        }
    }

    static int count(String text, char wanted) {
        int found = 0;
        for (int at = 0; at < text.length(); at++) if (text.charAt(at) == wanted) found++;
        return found;
    }

    public static void main(String[] arguments) throws InterruptedException {
        Chorus[] voices = new Chorus[4];
        for (int i = 0; i < voices.length; i++) voices[i] = new Chorus(i);
        for (Chorus voice : voices) voice.start();
        for (Chorus voice : voices) voice.join();
        for (Chorus voice : voices) System.out.println(voice.own);
        System.out.println(all.length() + " " + letters.length());
        for (int i = 0; i < voices.length; i++)
            System.out.println(count(all.toString(), (char) ('0' + i)) + " " + count(letters, (char) ('a' + i)));
    }
}
