# The numbers of a linked program in link_vectors are those that are counted from what javap prints of its class files.
. checks/lib
data=crates/link_vectors/data
if javac -version >/dev/null 2>&1 && javap -version >/dev/null 2>&1 && python3 --version >/dev/null 2>&1; then
    files=$(sed -n "s,.*\.class\$,$data/&,p" crates/link_vectors/args)
    sed -n '/^files linked$/,$p' crates/link_vectors/stdout | grep -v '^files safe$' >"$folder/wanted"
    if python3 checks/linking/numbers.py $files >"$folder/seen" && cmp -s "$folder/wanted" "$folder/seen"; then
        echo "ok the numbers of a program of javac"
    else
        echo "failed the numbers of a program of javac"
    fi
else
    echo "skipped the numbers of a program of javac: no javac, javap or python3"
fi
