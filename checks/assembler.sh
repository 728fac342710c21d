# The assembler over the real program: what javap and java make of its class files, and what it refuses.
. checks/lib

# A text on the standard input: make_of NAME STATUS ERR <text.
make_of() {
    "$program" make >"$folder/made.class" 2>"$folder/seen.err"
    seen=$?
    printf "$3" >"$folder/wanted.err"
    if [ "$seen" -eq "$2" ] && cmp -s "$folder/wanted.err" "$folder/seen.err" && { [ "$2" -eq 0 ] || [ ! -s "$folder/made.class" ]; }; then
        echo "ok $1"
    else
        echo "failed $1: status $seen"
    fi
}

# The texts of the user's page, and under each what java prints.
mkdir "$folder/page"
awk -v dir="$folder/page" '
    /^```jasm/ { n++; out = dir "/" n ".jasm"; next }
    /^```output/ { out = dir "/" n ".output"; next }
    /^```/ { out = ""; next }
    out != "" { print > out }' docs/assembler.md
for text in "$folder"/page/*.jasm; do
    class=$(sed -n '1s/^class \([^ ]*\).*/\1/p' "$text")
    make_of "the text $class of the page is made" 0 '' <"$text"
    mkdir -p "$folder/$class" && cp "$folder/made.class" "$folder/$class/$class.class"
    if java -version >/dev/null 2>&1; then
        if [ "$(java -Xverify:all -cp "$folder/$class" "$class" 2>&1)" = "$(cat "${text%.jasm}.output")" ]; then
            echo "ok java runs $class"
        else
            echo "failed java runs $class"
        fi
    else
        echo "skipped java runs $class: no java"
    fi
done
cmp -s "$folder/One/One.class" crates/jrev_main/data/One.class && echo "ok the file of One" || echo "failed the file of One"
[ "$("$program" pick "$folder/One" One 2>&1)" = 5 ] && echo "ok a made class is executed" || echo "failed a made class is executed"

# Each instruction and each kind of line, as javap reads them.
make_of "every form is made" 0 '' <checks/assembler/forms.jasm
if javap -version >/dev/null 2>&1; then
    mkdir "$folder/forms" && cp "$folder/made.class" "$folder/forms/Forms.class"
    (cd "$folder/forms" && javap -c -v -p Forms.class 2>&1) | sed '1,/^  Compiled from\|^  SHA-256/d' >"$folder/seen.javap"
    if cmp -s checks/assembler/forms.javap "$folder/seen.javap"; then
        echo "ok every form, as javap has it"
    else
        echo "failed every form, as javap has it"
        diff checks/assembler/forms.javap "$folder/seen.javap" | head -n 5
    fi
else
    echo "skipped every form, as javap has it: no javap"
fi

# Texts that are refused, and streams that fail.
printf 'class A\n\nfoo\n' | make_of "a line that says nothing" 11 'make: line 3\n'
printf '' | make_of "no text" 11 'make: line 1\n'
printf 'class A\nfield 1 \303\251 I\n' | make_of "a byte above 127" 11 'make: line 2\n'
printf 'class A\nfield 1 \377 I\n' | make_of "bytes that are not UTF-8" 11 'make: line 2\n'
{ printf 'class A\n'; head -c 1048568 /dev/zero | tr '\000' '\n'; } | make_of "as many bytes as there may be" 0 ''
{ printf 'class A\n'; head -c 1048569 /dev/zero | tr '\000' '\n'; } | make_of "one byte too many" 11 'make: line 1048570\n'
{ printf 'class A\n'; head -c 9000000 /dev/zero | tr '\000' '\n'; } | make_of "many bytes too many" 11 'make: line 1048570\n'
make_of "a folder for the standard input" 7 'read fault\n' <"$folder"
expect "make takes no words" 2 '' 'usage\n' make One
if [ -c /dev/full ]; then
    "$program" make <"$folder/page/1.jasm" >/dev/full 2>"$folder/err"
    status=$?
    { [ $status -eq 8 ] && [ "$(cat "$folder/err")" = "write fault" ] && echo "ok make on a full device"; } || echo "failed make on a full device: status $status"
else
    echo "skipped make on a full device: no /dev/full"
fi
