# javac's programs print and end under `run` as under `java`: on 1, 2 and 4 host threads, in slices of 1, 17 and 10,000 turns. Each
# class that has a main is a program. Counting isn't run in slices of 17 turns: its thread of lower priority doesn't come to the end of
# its section within such a slice, and the other one wants the monitor in each epoch, so the section is undone in each, and neither
# thread gets on (docs/hosts.md).
. checks/lib

# Keeps what words print and how they end, as a file: keep FILE WORD..
keep() {
    kept=$1
    shift
    "$@" >"$kept" 2>/dev/null
    echo "status $?" >>"$kept"
}

# Compares what a program does under `run` with what it does under `java`: compare NAME WORKERS SLICE
compare() {
    keep "$folder/seen" "$program" run "$folder/classes" "$1" "--workers=$2" "--slice=$3"
    cmp -s "$folder/wanted" "$folder/seen" || differs="$differs, $2 workers and a slice of $3"
}

if javac -version >/dev/null 2>&1 && java -version >/dev/null 2>&1; then
    "$program" --version >/dev/null || exit 1
    program="$PWD/crates/jrev_main/out/jrev_main"
    mkdir "$folder/classes"
    javac --release 8 -Xlint:-options -d "$folder/classes" checks/java/*.java || echo "failed javac"
    for class in $(cd "$folder/classes" && grep -l '(\[Ljava/lang/String;)V' ./*.class | grep -v '\$[0-9]'); do
        name=$(basename "$class" .class)
        differs=
        keep "$folder/wanted" java -XX:TieredStopAtLevel=1 -XX:+UseSerialGC -cp "$folder/classes" "$name"
        for workers in 1 2 4; do
            for slice in 1 17 10000; do
                [ "$name $slice" = "Counting 17" ] || compare "$name" "$workers" "$slice"
            done
        done
        if [ -z "$differs" ]; then
            echo "ok $name on host threads, as java has it"
        else
            echo "failed $name on host threads, as java has it$differs"
        fi
    done
else
    echo "skipped what java executes: no javac or java"
fi
