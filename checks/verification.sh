# javac's classes are type safe, and where bytes of their code are changed Java's verifier agrees.
. checks/lib
vectors=crates/link_vectors/out/link_vectors
if [ ! -x "$vectors" ]; then
    echo "skipped the verification of javac's classes: crates/link_vectors isn't built"
elif javac -version >/dev/null 2>&1 && java -version >/dev/null 2>&1 && python3 --version >/dev/null 2>&1; then
    for source in checks/java/*.java; do
        name=$(basename "$source" .java)
        mkdir "$folder/$name"
        javac --release 8 -Xlint:-options -d "$folder/$name" "$source"
        if [ "$("$vectors" "$folder/$name"/*.class | sed -n 2p)" = "files safe" ]; then
            echo "ok $name is type safe"
        else
            echo "failed $name is type safe"
        fi
    done
    if python3 checks/verification/mutants.py 4000 "$folder"/* >"$folder.seen"; then
        echo "ok changed code, as Java has it: $(head -n 1 "$folder.seen")"
    else
        echo "failed changed code, as Java has it: $(head -n 3 "$folder.seen")"
    fi
    rm -f "$folder.seen"
else
    echo "skipped the verification of javac's classes: no javac, java or python3"
fi
