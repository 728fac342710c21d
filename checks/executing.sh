# javac's programs print and end under `pick` as under `java`, with and without what a debugger wants. Each class that
# has a main is a program; one that starts threads is also picked under ten seeds.
. checks/lib

# Keeps what words print and how they end, as a file: keep FILE WORD..
keep() {
    kept=$1
    shift
    "$@" >"$kept" 2>/dev/null
    echo "status $?" >>"$kept"
}

# Compares what a program does under `pick` with what it does under `java`: compare FOLDER NAME OPTION..
compare() {
    keep "$folder/seen" "$program" pick "$@"
    cmp -s "$folder/wanted" "$folder/seen" || differs="$differs, ${1##*/} $3"
}

if javac -version >/dev/null 2>&1 && java -version >/dev/null 2>&1; then
    "$program" --version >/dev/null || exit 1
    program="$PWD/crates/jrev_main/out/jrev_main"
    for flag in -g -g:none; do
        mkdir "$folder/$flag"
        javac --release 8 -Xlint:-options "$flag" -d "$folder/$flag" checks/java/*.java || echo "failed javac $flag"
    done
    for class in $(cd "$folder/-g" && grep -l '(\[Ljava/lang/String;)V' ./*.class | grep -v '\$[0-9]'); do
        name=$(basename "$class" .class)
        differs=
        for flag in -g -g:none; do
            keep "$folder/wanted" java -XX:TieredStopAtLevel=1 -XX:+UseSerialGC -cp "$folder/$flag" "$name"
            compare "$folder/$flag" "$name"
        done
        if grep -q '\.start()' "checks/java/${name%%\$*}.java"; then
            for seed in 0 1 2 3 4 5 6 7 8 9; do
                compare "$folder/$flag" "$name" "--seed=$seed"
            done
        fi
        if [ -z "$differs" ]; then
            echo "ok $name, as java has it"
        else
            echo "failed $name, as java has it$differs"
        fi
    done
else
    echo "skipped what java executes: no javac or java"
fi
