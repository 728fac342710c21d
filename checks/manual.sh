# The manual page and the completion of bash have the commands and options of the text that `jrev --help` prints.
. checks/lib

# What bash offers after these words, the last of which is being written, one after another on a line: offered WORD..
offered() {
    LC_ALL=C bash -c '. scripts/completion/jrev.bash
        COMP_WORDS=("$@") COMP_CWORD=$(($# - 1))
        _jrev
        echo "${COMPREPLY[*]}"' bash "$@"
}

# The line of a check: offers NAME WANTED WORD..
offers() {
    name=$1 wanted=$2
    shift 2
    seen=$(offered "$@")
    if [ "$seen" = "$wanted" ]; then
        echo "ok $name"
    else
        echo "failed $name: $seen"
    fi
}

if python3 --version >/dev/null 2>&1; then
    { scripts/man_page --check && echo "ok the manual page is that of scripts/man_page"; } || echo "failed the manual page is that of scripts/man_page"
    "$program" --help >"$folder/help"
    scripts/man_page --text >"$folder/text"
    { cmp -s "$folder/help" "$folder/text" && echo "ok the manual page is made of what --help prints"; } || echo "failed the manual page is made of what --help prints"
else
    echo "skipped the manual page: no python3"
fi
if python3 --version >/dev/null 2>&1 && bash --version >/dev/null 2>&1; then
    scripts/man_page --words >"$folder/words"
    offers "the commands that bash offers" "$(cut -d' ' -f1 "$folder/words" | paste -sd' ')" jrev ''
    mkdir "$folder/classes"
    : >"$folder/classes/Main.class"
    : >"$folder/classes/Main\$1.class"
    : >"$folder/classes/\`touch made\`.class"
    : >"$folder/classes/Other.class"
    while read -r command options; do
        offers "the options of $command that bash offers" "$options" jrev "$command" "$folder/classes" Main ''
    done <"$folder/words"
    offers "a command that is begun" "make migrate" jrev m
    offers "folders after a command" "$folder/classes" jrev pick "$folder/cl"
    offers "classes after a folder" 'Main Other \`touch\ made\`' jrev load "$folder/classes" ''
    { [ ! -e made ] && echo "ok no name of a file is executed"; } || echo "failed no name of a file is executed"
    offers "no option twice" "--turns= --heap= --sections= --seed=" jrev trace "$folder/classes" Main --order = 1*2 ''
    offers "no option twice, one without a value" "--turns= --heap= --sections= --order= --seed=" jrev pick "$folder/classes" Main --counts ''
    offers "nothing in the place of a value" "" jrev pick "$folder/classes" Main --seed = ''
else
    echo "skipped the completion of bash: no python3 or no bash"
fi
