# The journal of each program of checks/java is accepted and gives the lines that `pick` prints, under five seeds. A byte of a
# journal that is changed is answered by status 10 at the right line, or by 0. A journal of the first version is migrated.
. checks/lib

"$program" --version >/dev/null || exit 1
program="$PWD/crates/jrev_main/out/jrev_main"

# Whether the journal of a class under a seed is accepted and prints the same: journals FOLDER NAME SEED
journals() {
    "$program" pick "$1" "$2" "--seed=$3" >"$folder/picked" 2>"$folder/picked.err"
    picked=$?
    "$program" trace "$1" "$2" "--seed=$3" >"$folder/journal" 2>"$folder/traced.err"
    traced=$?
    "$program" check "$1" "$2" <"$folder/journal" >"$folder/checked" 2>"$folder/checked.err"
    checked=$?
    [ "$traced" -eq "$picked" ] && cmp -s "$folder/picked.err" "$folder/traced.err" \
        && [ "$checked" -eq 0 ] && [ ! -s "$folder/checked.err" ] && cmp -s "$folder/picked" "$folder/checked"
}

if javac -version >/dev/null 2>&1; then
    mkdir "$folder/classes"
    javac --release 8 -Xlint:-options -d "$folder/classes" checks/java/*.java || echo "failed javac"
    for class in $(cd "$folder/classes" && grep -l '(\[Ljava/lang/String;)V' ./*.class | grep -v '\$[0-9]'); do
        name=$(basename "$class" .class)
        differs=
        for seed in 0 1 2 3 4; do
            journals "$folder/classes" "$name" "$seed" || differs="$differs $seed"
        done
        if [ -z "$differs" ]; then
            echo "ok $name, its journal is accepted"
        else
            echo "failed $name, its journal is accepted: seeds$differs"
        fi
    done
    "$program" trace "$folder/classes" Starting --seed=1 >"$folder/journal" 2>/dev/null
    python3 checks/journals/changed.py "$program" "$folder/classes" Starting "$folder/journal"
    sed '1s/2/1/' "$folder/journal" >"$folder/first"
    if "$program" migrate <"$folder/first" | cmp -s - "$folder/journal"; then
        echo "ok a journal of the first version is migrated"
    else
        echo "failed a journal of the first version is migrated"
    fi
else
    echo "skipped the journals of programs: no javac"
fi
