# load over folders of the system: javac's programs are accepted, and each stage refuses what its page says.
. checks/lib
one=crates/jrev_main/data/One.class

# The class files of the texts in the standard input, a blank line between two, in the folder NAME: texts NAME.
texts() {
    mkdir "$folder/$1"
    awk -v base="$folder/$1/" 'BEGIN { RS = "" } { print > (base NR ".jasm") }'
    for text in "$folder/$1"/*.jasm; do
        class=$(sed -n '1s/^class \([^ ]*\).*/\1/p' "$text")
        "$program" make <"$text" >"$folder/$1/$class.class" || echo "failed $1: a text of it isn't made"
    done
}

# A class of a text is refused, or accepted: loads NAME STATUS OUT ERR <texts, whose main class is A.
loads() {
    place=$(echo "$1" | tr ' ' _)
    texts "$place"
    expect "$1" "$2" "$3" "$4" load "$folder/$place" A
}

mkdir "$folder/one" && cp "$one" "$folder/one"
expect "one class" 0 'accepted 1\n' '' load "$folder/one" One
expect "another main class" 4 '' 'no main\n' load "$folder/one" Two
mkdir "$folder/empty"
expect "no class" 4 '' 'no main\n' load "$folder/empty" One
expect "no folder to load" 7 '' 'read fault\n' load "$folder/none" One

# The page of refusals: read.
file() {
    mkdir -p "$folder/$1" && cat >"$folder/$1/A.class"
}
printf 'class A {}\n' | file magic
expect "a source" 3 '' 'refused: read A.class 1 0 0\n' load "$folder/magic" A
{ printf '\312\376\272\276\000\000\000\075'; tail -c +9 "$one"; } | file version
expect "a class file of Java 17" 3 '' 'refused: read A.class 2 0 0\n' load "$folder/version" A
head -c 10 "$one" | file cut
expect "a file that is cut" 3 '' 'refused: read A.class 3 0 10\n' load "$folder/cut" A
cat "$one" "$one" | file two
expect "two files joined" 3 '' "refused: read A.class 8 0 $(wc -c <"$one" | tr -d ' ')\n" load "$folder/two" A
head -c 1048577 /dev/zero | file long
expect "a class file that is too long" 3 '' 'refused: read A.class 9 0 0\n' load "$folder/long" A
loads "a name with a dot" 3 '' 'refused: read A.class 7 0 5\n' <<END
class A
field 1 a.b I
END
loads "an abstract private method" 3 '' 'refused: read A.class 11 0 0\n' <<END
class A 1057
method 1026 m ()V
END
loads "two fields of one name" 3 '' 'refused: read A.class 12 0 65\n' <<END
class A
field 1 x I
field 1 x I
END

# code.
loads "a method without code" 3 '' 'refused: code A.class 7 0 0\n' <<END
class A
method 9 m ()V stack 0 locals 0
end
END
mkdir "$folder/doubles" && one_with 2 '\143\261' >"$folder/doubles/A.class"
expect "an addition of doubles" 3 '' 'refused: code A.class 2 0 0\n' load "$folder/doubles" A
loads "a handler that ends before it begins" 3 '' 'refused: code A.class 5 0 0\n' <<END
class A
method 9 m ()V stack 1 locals 0
a:
nop
b:
nop
c:
frame / java/lang/Throwable
pop
return
handler b a c any
end
END
loads "a branch past the last instruction" 3 '' 'refused: code A.class 4 0 0\n' <<END
class A
method 9 m ()V stack 0 locals 0
goto b
b:
end
END
loads "a frame past the last instruction" 3 '' 'refused: code A.class 6 0 0\n' <<END
class A
method 9 m ()V stack 0 locals 0
return
b:
frame /
end
END
loads "keys that fall" 3 '' 'refused: code A.class 8 0 1\n' <<END
class A
method 9 m ()V stack 1 locals 0
iconst_0
lookupswitch b 2 b 1 b
b:
return
end
END
loads "a constructor that is called as a method" 3 '' 'refused: code A.class 9 0 0\n' <<END
class A
method 9 m ()V stack 1 locals 0
invokevirtual A <init> ()V
return
end
END

# link and verify.
loads "a class that is not there" 3 '' 'refused: link A.class 2 0 4\n' <<END
class A
super Gone
END
loads "a method that is not type safe" 3 '' 'refused: verify B.class 2 1 1\n' <<END
class A
method 9 main ([Ljava/lang/String;)V stack 0 locals 1
return
end

class B
method 9 a ()V stack 0 locals 0
return
end
method 9 b ()I stack 1 locals 0
aconst_null
ireturn
end
END

# javac's programs.
if javac -version >/dev/null 2>&1; then
    for source in checks/java/*.java; do
        name=$(basename "$source" .java)
        mkdir "$folder/$name"
        javac --release 8 -Xlint:-options -d "$folder/$name" "$source"
        count=$(ls "$folder/$name" | grep -c '\.class$')
        expect "$name of javac" 0 "accepted $count\n" '' load "$folder/$name" "$name"
    done
else
    echo "skipped javac's programs: no javac"
fi

# A terminal gives the end of its input once.
if python3 --version >/dev/null 2>&1; then
    if python3 checks/loading/terminal.py "$program"; then
        echo "ok make on a terminal ends at the first end of its input"
    else
        echo "failed make on a terminal ends at the first end of its input"
    fi
else
    echo "skipped make on a terminal: no python3"
fi
