// Refused for a class that isn't built in, of which it uses a constructor and two methods.
import java.util.ArrayList;

class Listing {
    public static void main(String[] args) {
        ArrayList<String> list = new ArrayList<>();
        list.add("a");
        System.out.println(list.size());
    }
}
