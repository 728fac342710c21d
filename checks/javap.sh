# The constant pools and the instructions of what javac writes, as class_show and javap print them.
. checks/lib
if javac -version >/dev/null 2>&1 && javap -version >/dev/null 2>&1; then
    ./class_show crates/class_show/data/One.class >/dev/null || exit 1
    show="$PWD/class_show"
    cat >"$folder/Sample.java" <<'JAVA'
public class Sample {
    @Deprecated static final int LIMIT = 7;
    class Inner { long size = 1L << 40; }
    interface Shape { int area(int width, long height); }
    static String text(Object o) {
        try { return "a\u0000\ud83d\ude00" + o; } finally { System.out.println(LIMIT); }
    }
    public static void main(String[] words) {
        for (int i = 0; i < 3; i++) System.out.println(text(i) + 2.5 + 1.5f);
    }
}
JAVA
    locals=
    local=0
    while [ "$local" -lt 128 ]; do
        locals="$locals long a$local = $local;"
        local=$((local + 1))
    done
    sed "s/LOCALS/$locals/" >"$folder/Steps.java" <<'JAVA'
public class Steps {
    interface Shape { int area(int width, long height); }
    static int count;
    static int dense(int n) {
        switch (n) { case 1: return 5; case 2: return 7; case 3: return 9; default: return 0; }
    }
    static int sparse(int n) {
        switch (n) { case -100: return 1; case 7: return 2; case 100000: return 3; }
        return 0;
    }
    static long numbers(long a, int b) {
        try {
            a = a / b - a % 3L;
            a <<= b;
            return a ^ 5L;
        } finally {
            count++;
        }
    }
    static int nested(int a, int b, boolean c) {
        return a > b ? (c ? a : b) : (a == b ? 0 : -1);
    }
    static Object things(Object o, Shape s, int[] xs) throws Exception {
        synchronized (o) {
            if (o instanceof String) throw new Exception((String) o);
            byte[] bytes = new byte[s.area(40000, 1L << 40)];
            Object[] all = new Object[] { o, null, "text", Steps.class };
            for (int i = 0; i < xs.length; i += 200) bytes[i] = (byte) (xs[i] >>> 3);
            return all;
        }
    }
    static int far(int n) {
        LOCALS
        int last = n;
        last += 1000;
        last++;
        return last + (int) a127;
    }
}
JAVA
    javac --release 8 -g -d "$folder" "$folder/Sample.java" "$folder/Steps.java" 2>/dev/null
    for class in "$folder"/*.class; do
        name=$(basename "$class")
        javap -v "$class" | sed -n 's/^ *#\([0-9]*\) = \([A-Za-z0-9]*\).*/\1 \2/p' >"$folder/wanted"
        "$show" "$class" | sed -n 's/^  \([0-9][0-9]*\) \([A-Za-z0-9]*\) .*/\1 \2/p' >"$folder/seen"
        if [ -s "$folder/seen" ] && cmp -s "$folder/wanted" "$folder/seen"; then
            echo "ok the pool of $name, as javap has it"
        else
            echo "failed the pool of $name, as javap has it"
        fi
    done
    # The instructions by offset, with the keys and targets of switches; the count of invokeinterface is left out.
    instructions() {
        sed -n 's,//.*,,; s/[{,]/ /g; s/^ *\(-*[0-9]*\|default\): */\1: /p' |
            sed 's/  */ /g; s/ $//; s/\(invokeinterface #[0-9]*\) [0-9]*/\1/'
    }
    for class in "$folder"/Sample\$Inner.class "$folder"/Steps.class; do
        name=$(basename "$class")
        javap -c -p "$class" | instructions >"$folder/wanted"
        "$show" "$class" | sed -n '/^code of method/,$p' | instructions >"$folder/seen"
        if [ -s "$folder/seen" ] && cmp -s "$folder/wanted" "$folder/seen"; then
            echo "ok the instructions of $name, as javap has them"
        else
            echo "failed the instructions of $name, as javap has them"
        fi
    done
else
    echo "skipped what javap prints: no javac or javap"
fi
