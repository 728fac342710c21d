# Streams that fail, and words and names that no test can make.
. checks/lib
mkdir "$folder/one" && cp crates/jrev_main/data/One.class "$folder/one"
expect "a sum on the standard output" 0 '5\n' '' pick "$folder/one" One
expect "a class of another name" 4 '' 'no main\n' pick "$folder/one" Two
expect "no words" 2 '' 'usage\n'
expect "the version" 0 'jrev 0.1.0\n' '' --version
if [ -c /dev/full ]; then
    "$program" pick "$folder/one" One >/dev/full 2>"$folder/err"
    status=$?
    { [ $status -eq 8 ] && [ "$(cat "$folder/err")" = "write fault" ] && echo "ok a full device"; } || echo "failed a full device: status $status"
    "$program" none 2>/dev/full
    status=$?
    { [ $status -eq 8 ] && echo "ok a standard error on a full device"; } || echo "failed a standard error on a full device: status $status"
else
    echo "skipped a full device: no /dev/full"
fi
"$program" pick "$folder/one" One >&- 2>"$folder/err"
status=$?
{ [ $status -eq 8 ] && [ "$(cat "$folder/err")" = "write fault" ] && echo "ok a closed standard output"; } || echo "failed a closed standard output: status $status"
{ "$program" pick "$folder/one" One 2>"$folder/err"; echo $? >"$folder/status"; } | sleep 0
status=$(cat "$folder/status")
{ { [ "$status" -eq 8 ] || [ "$status" -eq 0 ]; } && echo "ok a closed pipe"; } || echo "failed a closed pipe: status $status"
expect "a word that is not UTF-8" 2 '' 'usage\n' pick "$folder/one" "$(printf 'O\377')"
ln -s "$PWD/jrev" "$folder/link"
(cd "$folder" && [ "$(./link pick one One)" = 5 ]) && echo "ok through a link, from another folder" || echo "failed through a link, from another folder"
