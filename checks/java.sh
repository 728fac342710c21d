# Classes that print the values of expressions print under java what they print here.
. checks/lib
mkdir "$folder/one"
same() {
    one_with "$2" "$3" >"$folder/one/One.class"
    if [ "$(java -cp "$folder/one" One 2>&1)" = "$("$program" pick "$folder/one" One 2>&1)" ]; then
        echo "ok $1, as java has it"
    else
        echo "failed $1, as java has it"
    fi
}
if java -version >/dev/null 2>&1; then
    same "a sum" 10 '\262\000\015\005\006\140\266\000\023\261'
    same "a product that wraps" 16 '\262\000\015\021\177\377\021\177\377\150\006\150\266\000\023\261'
    same "a difference" 12 '\262\000\015\020\144\020\371\144\266\000\023\261'
    same "three operators of bits" 19 '\262\000\015\020\144\020\371\176\020\005\200\021\377\000\202\266\000\023\261'
    same "a negation, and two statements" 18 '\262\000\015\021\200\000\164\266\000\023\262\000\015\002\266\000\023\261'
else
    echo "skipped what java prints: no java"
fi
