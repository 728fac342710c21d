# The pages: those that are made are as scripts/map makes them, and what a page names or links to is there.
if python3 --version >/dev/null 2>&1; then
    { scripts/map --check && echo "ok the made pages are those of scripts/map"; } || echo "failed the made pages are those of scripts/map"
    python3 checks/pages/pages.py || :
else
    echo "skipped the pages: no python3"
fi
