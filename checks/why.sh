# jrev_why says of a refused program what jrev load says, and what it means; its rules are those of the pages.
. checks/lib
why="$PWD/jrev_why"

if python3 --version >/dev/null 2>&1; then
    { scripts/refusal_rules --check && echo "ok the rules of refusals are those of the pages"; } || echo "failed the rules of refusals are those of the pages"
else
    echo "skipped the rules of refusals: no python3"
fi

# The names of the variants of an enum, in order, but for NoMemory: variants FILE ENUM.
variants() {
    sed -n "/^pub enum $2 {/,/^}/s/^    \([A-Z][A-Za-z]*\).*/\1/p" "$1" | grep -v '^NoMemory$'
}

# The kinds of a stage as jrev_why tells them, which are the variants of this enum: kinds STAGE FILE ENUM.
kinds() {
    variants "$2" "$3" >"$folder/variants"
    sed -n "/^pub(crate) const $1:/,/^]/s/^        kind: \"\(.*\)\",/\1/p" crates/why_texts/src/table.rt >"$folder/kinds"
    if [ -s "$folder/kinds" ] && cmp -s "$folder/variants" "$folder/kinds"; then
        echo "ok the kinds of $1"
    else
        echo "failed the kinds of $1"
    fi
}
kinds READ_RULES crates/class_pool/src/refusal.rt ReadRefusal
kinds CODE_RULES crates/code_decode/src/refusal.rt CodeRefusal
kinds LINK_RULES crates/link_types/src/refusal.rt LinkKind
kinds VERIFY_RULES crates/type_rules/src/refusal.rt VerifyKind

# What jrev_why prints, with the status and the first line of `jrev load`: explains NAME FOLDER MAIN WANTED, with WANTED as
# lines that are printed in this order.
explains() {
    "$program" load "$2" "$3" >"$folder/load.out" 2>"$folder/load.err"
    status=$?
    "$why" "$2" "$3" >"$folder/why.out" 2>"$folder/why.err"
    seen=$?
    cat "$folder/load.out" "$folder/load.err" >"$folder/loaded"
    printf '%s\n' "$4" >"$folder/wanted"
    sed 1d "$folder/why.out" >"$folder/rest"
    if [ $seen -eq $status ] && [ ! -s "$folder/why.err" ] && head -n 1 "$folder/why.out" | cmp -s - "$folder/loaded" \
        && cmp -s "$folder/wanted" "$folder/rest"; then
        echo "ok why $1"
    else
        echo "failed why $1: status $seen"
        diff "$folder/wanted" "$folder/rest" | sed 's/^/failed     /'
    fi
}

one=crates/jrev_main/data/One.class
mkdir "$folder/one" "$folder/version" "$folder/cut" "$folder/texts" "$folder/none"
cp "$one" "$folder/one"
explains "a class isn't there" "$folder/one" Two 'what to do: give the name of a class of the folder that has a static method void main(String[]) itself'
{ printf '\312\376\272\276\000\000\000\075'; tail -c +9 "$one"; } >"$folder/version/A.class"
cp "$one" "$folder/version/B.class"
explains "a file of Java 17 is refused" "$folder/version" B 'rule: Version, which comes where the version is none of 50, 51 and 52
what to do: compile with --release 8
files whose first fault this is: 1 of 2'
for name in A B C; do head -c 10 "$one" >"$folder/cut/$name.class"; done
explains "files that are cut are refused" "$folder/cut" A 'rule: Truncated, which comes where a part of the file goes past its end
what to do: copy or compile it again
files whose first fault this is: 3 of 3'
"$program" make >"$folder/texts/A.class" <<'END'
class A
method 9 main ([Ljava/lang/String;)V stack 0 locals 1
return
end
method 9 b ()I stack 1 locals 0
aconst_null
ireturn
end
END
explains "a method isn't type safe" "$folder/texts" A 'rule: TypeMismatch, which comes where a word on the stack or in a local is of another type, or half of a long; an <init> is called on what is initialized, or is of the wrong class; a handler catches a class that is no Throwable
what to do: use the instruction of the type: areturn, pop2; compile all files together where a class has changed its superclass
class: "A", version 52
method: "b" "()I"
instruction: at 1, number 172: ireturn'
"$why" "$folder/none-at-all" A >"$folder/why.out" 2>"$folder/why.err"
{ [ $? -eq 7 ] && [ "$(cat "$folder/why.err")" = "read fault" ] && echo "ok why there is no folder"; } || echo "failed why there is no folder"
"$why" "$folder/one" >"$folder/why.out" 2>"$folder/why.err"
{ [ $? -eq 2 ] && [ "$(cat "$folder/why.err")" = "usage: jrev_why DIR MAIN" ] && echo "ok jrev_why without MAIN"; } || echo "failed jrev_why without MAIN"

# The places are those that javap shows.
if javac -version >/dev/null 2>&1 && javap -version >/dev/null 2>&1; then
    mkdir "$folder/counting"
    javac --release 8 -Xlint:-options -d "$folder/counting" checks/java/Counting.java || echo "failed javac"
    (cd "$folder/counting" && javap -c -p ./*.class) >"$folder/code"
    first=$("$program" trace "$folder/counting" Counting | sed -n 's/^[0-9]* [0-9]* new .* //p;' | head -n 1)
    explains "a program is accepted" "$folder/counting" Counting "methods: $(grep -c '^  .*(.*).*;$\|^  static {};' "$folder/code")
instructions: $(grep -c '^ *[0-9]*: ' "$folder/code")
classes that a thread can execute: 1
words at the start: $((first - 1))"
    for class in Lambda Listing Upper; do
        mkdir "$folder/$class"
        javac --release 8 -Xlint:-options -d "$folder/$class" "checks/why/$class.java" || echo "failed javac"
    done
    at=$(javap -c -p -cp "$folder/Lambda" Lambda | sed -n 's/^ *\([0-9]*\): invokedynamic.*/\1/p')
    explains "a lambda is refused" "$folder/Lambda" Lambda 'rule: Unsupported, which comes where the instruction isn'"'"'t executed here: float and double, jsr and ret, invokedynamic, multianewarray, constants of other kinds
what to do: an anonymous class for a lambda, int and long, one dimension at a time
class: "Lambda", version 52
method: "main" "([Ljava/lang/String;)V"
instruction: at '"$at"', number 186: invokedynamic, of a lambda, a method reference or a joined text
it names: call site "run" "()Ljava/lang/Runnable;"
files whose first fault this is: 1 of 1'
    built_in=$(sed -n 's/^class [0-9]* \(\S*\) .*/built in: \1/p' crates/base_tables/stdout)
    explains "a class of the Java API is refused" "$folder/Listing" Listing 'rule: Missing, which comes where a superclass, an interface, or a class that an instruction or a handler names doesn'"'"'t exist; for an array class, the class of its innermost elements
what to do: add the file; use what the page of built-in classes lists
class: "Listing", version 52
it names: class "java/util/ArrayList"
used in "Listing.class": "<init>" "()V"
used in "Listing.class": "add" "(Ljava/lang/Object;)Z"
used in "Listing.class": "size" "()I"
'"$built_in"
    explains "a method of the Java API is refused" "$folder/Upper" Upper 'rule: NoMethod, which comes where a method of this name and descriptor is neither in the class nor above it; a class that isn'"'"'t abstract doesn'"'"'t implement an abstract method; super.m() finds an abstract one
what to do: use what the page of built-in classes lists, or add the method
class: "Upper", version 52
it names: method of class "java/lang/String" "toUpperCase" "()Ljava/lang/String;"
used in "Upper.class": "toUpperCase" "()Ljava/lang/String;"
built in: java/lang/String length ()I
built in: java/lang/String charAt (I)C
built in: java/lang/String equals (Ljava/lang/Object;)Z
built in: java/lang/String concat (Ljava/lang/String;)Ljava/lang/String;'
else
    echo "skipped why programs of javac are refused: no javac or javap"
fi
