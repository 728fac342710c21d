# Large inputs, one in each direction: many printed lines, as many threads as there may be, a class file near the greatest
# size with methods near theirs, as many class files as a program may have, and a folder full of other files.
. checks/lib

# The class file of a text of checks/large, in a folder: make_class FOLDER NAME.
make_class() {
    mkdir -p "$folder/$1"
    "$program" make <"checks/large/$2.jasm" >"$folder/$1/$2.class" || echo "failed large: $2 isn't made"
}

# What is printed, in this order or, with `sorted`, in any: prints NAME WANTED HOW WORD..
prints() {
    name=$1 wanted=$folder/$2.wanted how=$3
    shift 3
    "$program" "$@" >"$folder/seen.out" 2>"$folder/seen.err"
    status=$?
    [ "$how" = sorted ] && sort -n -o "$folder/seen.out" "$folder/seen.out"
    if [ $status -eq 0 ] && cmp -s "$wanted" "$folder/seen.out" && [ ! -s "$folder/seen.err" ]; then
        echo "ok $name"
    else
        echo "failed $name: status $status"
    fi
}

if python3 checks/large/inputs.py "$folder"; then
    make_class lines Lines
    make_class threads Crowd
    make_class threads Member
    prints "50,000 lines" lines ordered pick "$folder/lines" Lines
    prints "254 started threads" threads ordered pick "$folder/threads" Crowd
    prints "254 started threads, drawn" threads sorted pick "$folder/threads" Crowd --seed=7
    prints "a class file of 900 KiB, with methods of 60,000 bytes" large ordered pick "$folder/large" Large
    prints "1,024 class files" many ordered pick "$folder/many" Many
    prints "a class among 5,000 other files" others ordered pick "$folder/others" Small
    expect "1,024 class files are accepted" 0 'accepted 1024\n' '' load "$folder/many" Many
else
    echo "skipped large inputs: no python3"
fi
