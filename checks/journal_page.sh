# The page that scripts/journal_page makes of a journal says what is in the journal; a text that is none is refused at the
# line that `jrev migrate` names.
. checks/lib

# The page of a journal: page NAME WORD.., which goes to the file NAME.
page() {
    name=$1
    shift
    scripts/journal_page "$@" >"$folder/$name" 2>"$folder/$name.err" || echo "failed $name: $(cat "$folder/$name.err")"
}

# The line of a check: says NAME PAGE WANTED PART.., where WANTED has a line for each part of the data.
says() {
    name=$1 file=$2
    printf '%s\n' "$3" >"$folder/wanted"
    shift 3
    if python3 checks/journal_page/data.py "$folder/$file" "$@" >"$folder/seen" && cmp -s "$folder/wanted" "$folder/seen"; then
        echo "ok $name"
    else
        echo "failed $name: $(cat "$folder/seen")"
    fi
}

# The counts of a journal as awk makes them: events, threads, levels (entries of monitors that the thread doesn't hold), ended
# and begun waits, and notifications that woke a thread.
counts() {
    awk '
        /^undone|^jrev|^end/ { next }
        { events++ }
        $3 == "start" && $6 ~ /^[1-9]/ { threads++ }
        $3 == "enter" && held[$1, $4]++ == 0 { levels++ }
        $3 == "exit" && $5 != "no" { held[$1, $4]-- }
        $3 == "wait" && $5 != "no" { waits++; kept[$1, $4] = held[$1, $4]; held[$1, $4] = 0 }
        $3 == "rewake" { held[$1, $4] = kept[$1, $4] }
        $3 == "notify" && $5 ~ /^[1-9]/ { arrows++ }
        END { printf "[%d,%d,%d,%d,%d]\n", events, threads + 1, levels, waits, arrows }' "$1"
}

# A text that is no journal: refused NAME LINE TEXT, with TEXT as a printf format.
refused() {
    printf -- "$3" >"$folder/text"
    scripts/journal_page "$folder/text" >"$folder/page" 2>"$folder/page.err"
    status=$?
    "$program" migrate <"$folder/text" 2>"$folder/migrated" >/dev/null
    if [ $status -eq 1 ] && [ ! -s "$folder/page" ] && [ "$(wc -l <"$folder/page.err")" -eq 1 ] \
        && grep -q "^journal_page: line $2 " "$folder/page.err" && [ "$(cat "$folder/migrated")" = "not an execution: line $2" ]; then
        echo "ok no page of $1"
    else
        echo "failed no page of $1: status $status, $(cat "$folder/page.err"); migrate: $(cat "$folder/migrated")"
    fi
}

if ! python3 --version >/dev/null 2>&1; then
    echo "skipped the pages of journals: no python3"
    exit
fi

# The class One prints 5 as its third event, and ends with its fourth.
mkdir "$folder/one" && cp crates/jrev_main/data/One.class "$folder/one"
"$program" trace "$folder/one" One >"$folder/journal"
"$program" check "$folder/one" One <"$folder/journal" >"$folder/lines"
page one.html "$folder/journal" "--lines=$folder/lines"
says "a page of a journal" one.html '[[1,5,0,0,4,0]]
["5"]' threads lines
says "a page has the journal" one.html "$(sed '$d' "$folder/journal")" journal
scripts/journal_page - <"$folder/journal" >"$folder/input.html"
says "a page of the standard input" input.html '4' events
scripts/journal_page "$folder/journal" "--lines=/dev/null" >"$folder/page" 2>"$folder/page.err"
{ [ $? -eq 1 ] && [ "$(wc -l <"$folder/page.err")" -eq 1 ] && echo "ok no page with too few lines"; } || echo "failed no page with too few lines"

# By the rules of docs/sections.md: thread 1 opens the levels 1 and 2 at its events 2 and 3, and writes a word in them; event 5,
# a read by thread 2, pins both. The level that opens at event 8 isn't pinned until its thread prints (event 9).
cat >"$folder/sections" <<'END'
jrev-trace 2
1 0 start 40 7 2
1 0 enter 50
1 0 enter 51
1 3 write 60 0 9
2 0 read 60 0 9
1 0 exit 51
undone 2 1 12
1 0 exit 50
1 0 enter 50
1 2 print
1 0 wait 50
2 0 notify 50 1
1 0 rewake 50
2 0 died 13
1 0 exit 50
1 1 end
end 15
END
page sections.html "$folder/sections"
says "levels and pins" sections.html '[1,1,2,7,50,5,1,2,3,6,51,5,1,1,8,14,50,9]' bars
says "undone levels" sections.html '[2,1,12,5,6]' undos
says "waits and notifications" sections.html '[1,10,12,50]
[11,2,1]' waits arrows
says "starts and ends" sections.html '[[1,5,0,0,15,0],[2,7,1,1,13,13]]' threads
# An exit of a monitor while one further inside is held pins all levels (event 3), and a level opens that is pinned at once.
cat >"$folder/crossed" <<'END'
jrev-trace 1
1 0 enter 50
1 0 enter 51
1 0 exit 50
1 0 enter 52
1 0 enter 52
1 0 exit 52
1 0 exit 52
1 0 exit 51
1 0 exit 50 no
end 9
END
page crossed.html "$folder/crossed"
says "monitors that are exited in another order" crossed.html '[1,1,1,8,50,3,1,2,2,8,51,3,1,3,4,7,52,0]' bars

refused "an empty text" 1 ''
refused "another version" 1 'jrev-trace 3\nend 0\n'
refused "a first line that isn't ended" 1 'jrev-trace 2'
refused "a journal without its end" 3 'jrev-trace 2\n1 0 end\n'
refused "an end of another number" 3 'jrev-trace 2\n1 0 end\nend 2\n'
refused "a line after the end" 4 'jrev-trace 2\n1 0 end\nend 1\n\n'
refused "bytes after the end" 4 'jrev-trace 2\n1 0 end\nend 1\nx'
refused "an end that isn't ended" 3 'jrev-trace 2\n1 0 end\nend 1'
refused "an empty line" 2 'jrev-trace 2\n\nend 0\n'
refused "two spaces" 2 'jrev-trace 2\n1  0 end\nend 1\n'
refused "a leading zero" 2 'jrev-trace 2\n1 00 end\nend 1\n'
refused "thread 0" 2 'jrev-trace 2\n0 0 end\nend 1\n'
refused "thread 256" 2 'jrev-trace 2\n256 0 end\nend 1\n'
refused "too many silent steps" 2 'jrev-trace 2\n1 1000000001 end\nend 1\n'
refused "a number of 33 bits" 2 'jrev-trace 2\n1 0 read 1 2 4294967296\nend 1\n'
refused "priority 11" 2 'jrev-trace 2\n1 0 start 5 11 2\nend 1\n'
refused "an unknown operation" 2 'jrev-trace 2\n1 0 sleep 5\nend 1\n'
refused "a reply that doesn't fit" 2 'jrev-trace 2\n1 0 enter 5 no\nend 1\n'
refused "a line that ends in CR and LF" 2 'jrev-trace 2\n1 0 end\r\nend 1\n'
refused "a digit of another script" 2 'jrev-trace 2\n\331\241 0 end\nend 1\n'
refused "an undone line in version 1" 2 'jrev-trace 1\nundone 1 1 1\nend 0\n'
refused "level 0" 2 'jrev-trace 2\nundone 1 0 1\nend 0\n'

if javac -version >/dev/null 2>&1; then
    mkdir "$folder/classes"
    javac --release 8 -Xlint:-options -d "$folder/classes" checks/java/*.java || echo "failed javac"
    for class in Handover Threads Guarded; do
        "$program" trace "$folder/classes" "$class" --seed=3 >"$folder/journal" 2>/dev/null
        page "$class.html" "$folder/journal"
        says "a page of a journal of $class" "$class.html" "$(counts "$folder/journal")" counts
    done
else
    echo "skipped pages of journals of programs: no javac"
fi

# 100,000 events: within 20 seconds and 4 megabytes.
awk 'BEGIN {
    print "jrev-trace 2\n1 0 start 40 5 2"
    for (event = 2; event <= 100000; event += 3)
        print (event % 2 + 1) " 4 enter 50\n" (event % 2 + 1) " 0 write 60 " event % 7 " " event "\n" (event % 2 + 1) " 0 exit 50"
    print "end 100000" }' >"$folder/long"
begun=$(date +%s)
page long.html "$folder/long"
took=$(($(date +%s) - begun)) size=$(wc -c <"$folder/long.html")
{ [ $took -le 20 ] && [ "$size" -le 4000000 ] && echo "ok a page of 100,000 events"; } || echo "failed a page of 100,000 events: $took seconds, $size bytes"

# A browser, where there is one, runs the page without an error and says what it shows.
if browser=$(command -v chromium || command -v chromium-browser || command -v google-chrome); then
    timeout 120 "$browser" --headless=new --no-sandbox --disable-gpu --enable-logging=stderr --virtual-time-budget=3000 \
        --dump-dom "file://$folder/sections.html#4" >"$folder/shown" 2>"$folder/shown.err"
    if grep -q '15 events, 2 threads, 3 levels, 1 wait, undone 1 time<' "$folder/shown" && ! grep -q ':CONSOLE' "$folder/shown.err" \
        && grep -q 'level 2: the monitor of object 51, from event 3 to event 6, pinned from event 5 (thread 2 reads 9 from word 0' "$folder/shown"; then
        echo "ok a browser shows the page"
    else
        echo "failed a browser shows the page"
    fi
else
    echo "skipped a browser: there is none"
fi
