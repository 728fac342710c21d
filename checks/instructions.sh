# What java makes of the methods of interp_vectors is what the vectors want of them.
. checks/lib
if javac -version >/dev/null 2>&1 && java -version >/dev/null 2>&1; then
    cat >"$folder/Call.java" <<'JAVA'
import java.lang.reflect.InvocationTargetException;

public class Call {
    public static void main(String[] words) throws Exception {
        for (int i = 1; i < words.length; i++) {
            Object answer;
            try {
                answer = Class.forName(words[0]).getMethod(words[i]).invoke(null);
            } catch (InvocationTargetException e) {
                answer = e.getCause().getClass().getName();
            }
            System.out.println(words[0] + " " + words[i] + " " + answer);
        }
    }
}
JAVA
    javac -d "$folder" "$folder/Call.java" 2>/dev/null
    for class in $(cat crates/interp_vectors/args); do
        text=crates/interp_vectors/data/$class
        "$program" make <"$text" >"$folder/$class.class"
        java -Xverify:all -cp "$folder" Call "$class" $(sed -n 's/^method [0-9]* \([^ ]*\) .*/\1/p' "$text") >"$folder/seen" 2>&1
        grep "^$class " crates/interp_vectors/stdout >"$folder/wanted"
        if [ -s "$folder/wanted" ] && cmp -s "$folder/wanted" "$folder/seen"; then
            echo "ok the methods of $class, as java has them"
        else
            echo "failed the methods of $class, as java has them"
            diff "$folder/wanted" "$folder/seen" | head -n 5
        fi
    done
else
    echo "skipped the methods of the vectors, as java has them: no javac or java"
fi
