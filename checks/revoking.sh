# A thread of higher priority takes a lock back under `pick`: the programs of checks/revoking print these lines and have these
# counts. The orders use kinds of steps: 12 takes a monitor, 8 revokes a section, 14 gives a monitor back, 10 ends an undoing,
# 20 ends a thread. Thread 1 is main's, 2 the slow one, 3 the urgent one.
. checks/lib

# The line of a check of a program under an order or another option: picks NAME STATUS OUT ERR CLASS OPTION..
picks() {
    name=$1 status=$2 out=$3 err=$4
    shift 4
    expect "$name" "$status" "$out" "$err" pick "$folder/classes" "$@" --counts
}

# The words that are no command: refuses NAME WORD..
refuses() {
    name=$1
    shift
    expect "$name" 2 '' 'usage\n' "$@"
}

"$program" --version >/dev/null || exit 1
program="$PWD/crates/jrev_main/out/jrev_main"
one="crates/jrev_main/data"
expect "counts where no monitor is entered" 0 '5\n' 'counts: opened 0 undone 0\n' pick "$one" One --counts
expect "a limit of no section" 0 '5\n' 'counts: opened 0 undone 0\n' pick "$one" One --sections=0 --counts
expect "counts after the line of a limit" 6 '' 'limit: turns thread 1\ncounts: opened 0 undone 0\n' pick "$one" One --turns=1 --counts
expect "turns up to a step of a kind" 0 '5\n' '' pick "$one" One --order=1@1,1@27
refuses "a kind above 27" pick "$one" One --order=1@28
refuses "kind 0" pick "$one" One --order=1@0
refuses "counts with a value" pick "$one" One --counts=1
refuses "counts twice" pick "$one" One --counts --counts
refuses "trace, with counts" trace "$one" One --counts
refuses "load, with counts" load "$one" One --counts

if javac -version >/dev/null 2>&1; then
    mkdir "$folder/classes"
    javac --release 8 -Xlint:-options -d "$folder/classes" checks/revoking/*.java || echo "failed javac"

    # The slow thread is in the middle of its section as the urgent one wants the lock, undoes it, and does it again.
    middle="1@20,2@12,2*300"
    taken="3@8,2@10,3@20"
    picks "a lock that is taken back" 0 '0\n1000\n' 'counts: opened 3 undone 1\n' Urgent "--order=$middle,$taken"
    picks "a lock that nobody wants in time" 0 '1000\n1000\n' 'counts: opened 2 undone 0\n' Urgent
    picks "a lock that a thread of the same priority wants" 0 '1000\n1000\n' 'counts: opened 2 undone 0\n' Even "--order=$middle,$taken"
    picks "a lock that is taken back three times" 0 '0\n0\n0\n1000\n' 'counts: opened 7 undone 3\n' Again \
        "--order=$middle,3@8,2@10,3@14,2@12,2*300,3@8,2@10,3@14,2@12,2*300,3@8,2@10,3@14"
    picks "a lock that the slow thread takes again first" 0 '1000\n1000\n' 'counts: opened 3 undone 1\n' Urgent "--order=$middle,3@8"
    picks "no section" 6 '' 'limit: sections thread 2\ncounts: opened 0 undone 0\n' Urgent --sections=0
    picks "one section" 6 '' 'limit: sections thread 3\ncounts: opened 1 undone 0\n' Urgent --sections=1
    picks "a section that is opened again needs a number" 6 '0\n' 'limit: sections thread 2\ncounts: opened 2 undone 1\n' \
        Urgent "--order=$middle,$taken" --sections=2

    # However the turns are drawn: each undoing opens one section more, and the urgent thread never sees a part of the work.
    for seed in 0 1 2 3 4 5 6 7 8 9; do
        "$program" pick "$folder/classes" Urgent "--seed=$seed" --counts >"$folder/seen.out" 2>"$folder/seen.err"
        status=$?
        lines=$(paste -sd' ' "$folder/seen.out")
        counts=$(cat "$folder/seen.err")
        undone=${counts##* }
        if [ $status -eq 0 ] && { [ "$lines" = "0 1000" ] || [ "$lines" = "1000 1000" ]; } \
            && [ "$counts" = "counts: opened $((undone + 2)) undone $undone" ]; then
            echo "ok a lock that is taken back, seed $seed"
        else
            echo "failed a lock that is taken back, seed $seed: status $status, $lines, $counts"
        fi
    done

    # The slow thread holds two locks. Thread 3 wants the inner one, and thread 4 the outer one.
    inside="1@20,2@12,2@12,2*300"
    picks "an inner lock that is taken back" 0 '1000\n2002\n2\n100\n' 'counts: opened 3 undone 1\n' Nested "--order=$inside,$taken"
    picks "an outer lock that is taken back" 0 '2000\n1100\n2\n100\n' 'counts: opened 4 undone 1\n' Nested "--order=$inside,4@8,2@10,4@20"
    picks "an inner lock, and then the outer one" 0 '1000\n2000\n2\n100\n' 'counts: opened 4 undone 2\n' Nested \
        "--order=$inside,$taken,4@8,2@10,4@20"

    # Each of two threads holds the lock that the other one wants. Where the lower one has the turn as soon as it is undone, it
    # takes its lock again each time.
    picks "crossed locks, of threads of the same priority" 5 '' 'stuck\ncounts: opened 2 undone 0\n' 'Crossed$Same' --order=1@20,2@12,3@20
    picks "crossed locks, one of which is taken back" 0 'both\nboth\n' 'counts: opened 3 undone 1\n' Crossed "--order=1@20,2@12,$taken"
    picks "crossed locks, one of which is taken again first" 6 '' 'limit: sections thread 2\ncounts: opened 100 undone 99\n' \
        Crossed --order=1@20,2@12,3@20 --sections=100

    # What was done before the urgent thread wants the lock can't be taken back. Kind 17 prints, 24 looks for a thread that
    # waits, 22 waits, 19 starts a thread, 26 claims a class.
    kept='counts: opened 2 undone 0\n'
    picks "a slow thread that has printed" 0 'slow\n1000\n' "$kept" 'Kept$Prints' --order=1@20,2@17,3@8
    picks "a slow thread that has notified" 0 '1000\n' "$kept" 'Kept$Notifies' --order=1@20,2@24,3@8
    picks "a slow thread that has waited" 0 '1000\n' 'counts: opened 3 undone 0\n' 'Kept$Waits' --order=1@20,2@22,2@14,3@8,4@20
    picks "a slow thread that has started another one" 0 '1000\n' "$kept" 'Kept$Starts' --order=1@20,2@19,3@8
    picks "a slow thread that initializes a class" 0 '1000\n' "$kept" 'Kept$Initializes' --order=1@20,2@26,3@8
    picks "a word that another thread has read" 0 'true\n1000\n' "$kept" 'Kept$IsRead' --order=1@20,2@12,2@2,4@20,3@8
    picks "a word that another thread has overwritten" 0 '5999\n' "$kept" 'Kept$IsOverwritten' --order=1@20,2@12,2@2,4@20,3@8

    # A section has at most 255 levels.
    picks "255 monitors inside each other" 0 '255\n' 'counts: opened 1 undone 0\n' Deep
    picks "256 monitors inside each other" 6 '' 'limit: depth thread 1\ncounts: opened 1 undone 0\n' 'Deep$More'
else
    echo "skipped locks that are taken back: no javac"
fi
