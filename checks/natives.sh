# The methods of the built-in classes, by the rows of `native` in crates/java_rows/specs/Natives.antt: the programs of
# checks/natives print and end as their cases say, under `pick` and under `java`. A case is lines:
#   case NAME        it begins
#   prints LINE      a line on the standard output, as a printf format
#   tells LINE       a line on the standard error
#   status N         where it isn't 0
#   not java: WHAT   what `java` does instead, which isn't asked then
# and after them, in the language of docs/assembler.md, the code of main of the class A, and more classes.
. checks/lib

# What java writes of threads that died, as `died` lines. Its Thread-0 is thread 2, where threads start as they are made.
deaths() {
    awk -F '"' '/^Exception in thread / {
        split($3, words, /[ :]+/)
        gsub(/\./, "/", words[2])
        print "died: thread", ($2 == "main" ? 1 : substr($2, 8) + 2), words[2]
    }' | sort -n -k 3
}

# Makes the classes of the case that was read, and executes it.
judge() {
    [ -n "$title" ] || return 0
    for text in "$place"/*.jasm; do
        "$program" make <"$text" >"${text%.jasm}.class" || echo "failed $title: a text of it isn't made"
    done
    expect "$title" "$status" "$out" "$err" pick "$place" A
    [ -n "$asked" ] || return 0
    java -Xint -XX:+UseSerialGC -Dfile.encoding=UTF-8 -Dstdout.encoding=UTF-8 -cp "$place" A \
        >"$folder/seen.out" 2>"$folder/java.err"
    deaths <"$folder/java.err" >"$folder/seen.err"
    if cmp -s "$folder/wanted.out" "$folder/seen.out" && cmp -s "$folder/wanted.err" "$folder/seen.err"; then
        echo "ok $title, as java has it"
    else
        echo "failed $title, as java has it"
    fi
}

"$program" --version >/dev/null || exit 1
program="$PWD/crates/jrev_main/out/jrev_main"
java=
if java -version >/dev/null 2>&1; then
    java=yes
else
    echo "skipped the built-in methods, as java has them: no java"
fi
title=
count=0
for file in checks/natives/*; do
    while IFS= read -r line; do
        case $line in
            "case "*)
                judge </dev/null
                title=${line#case } status=0 out= err= asked=$java
                count=$((count + 1))
                place=$folder/$count
                text=$place/A.jasm
                mkdir "$place"
                printf 'class A\nmethod 9 main ([Ljava/lang/String;)V stack 8 locals 8\n' >"$text"
                ;;
            prints) out="$out\\n" ;;
            "prints "*) out="$out${line#prints }\\n" ;;
            "tells "*) err="$err${line#tells }\\n" ;;
            "status "*) status=${line#status } ;;
            "not java: "*) asked= ;;
            "#"* | "") ;;
            *)
                case $line in "class "*) text=$place/${line#class }.jasm ;; esac
                printf '%s\n' "$line" >>"$text"
                ;;
        esac
    done <"$file"
done
judge
