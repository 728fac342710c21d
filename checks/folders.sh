# Folders of the system.
. checks/lib
mkdir "$folder/empty" "$folder/inner" "$folder/inner/A.class" "$folder/broken" "$folder/long" "$folder/bad" "$folder/closed"
one=crates/jrev_main/data/One.class
expect "an empty folder" 4 '' 'no main\n' pick "$folder/empty" Main
expect "no folder" 7 '' 'read fault\n' pick "$folder/none" Main
expect "a folder that is a file" 7 '' 'read fault\n' pick "$one" Main
cp "$one" "$folder/inner/One.class"
expect "a folder inside is no file" 0 '5\n' '' pick "$folder/inner" One
ln -s nothing "$folder/broken/A.class" && cp "$one" "$folder/broken/One.class"
expect "a link to nothing is left out" 0 '5\n' '' pick "$folder/broken" One
mkdir "$folder/linked" && ln -s "$PWD/$one" "$folder/linked/One.class"
expect "a link to a file is followed" 0 '5\n' '' pick "$folder/linked" One
head -c 1048577 /dev/zero >"$folder/long/A.class"
expect "a file that is too long" 3 '' 'refused: read A.class 9 0 0\n' pick "$folder/long" A
{ cat "$one"; head -c 2000000 /dev/zero; } >"$folder/long/A.class"
expect "a file that is much too long" 3 '' 'refused: read A.class 9 0 0\n' pick "$folder/long" One
if touch "$folder/bad/$(printf 'A\377.txt')" 2>/dev/null; then
    expect "a name that is not UTF-8" 7 '' 'read fault\n' pick "$folder/bad" One
else
    echo "skipped a name that is not UTF-8: this file system has none"
fi
cp "$one" "$folder/closed/One.class" && chmod 000 "$folder/closed/One.class"
if [ -r "$folder/closed/One.class" ]; then
    echo "skipped an unreadable file: this user reads all files"
else
    expect "an unreadable file" 7 '' 'read fault\n' pick "$folder/closed" One
fi
