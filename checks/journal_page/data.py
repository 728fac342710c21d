"""Prints what a page of scripts/journal_page says: `data.py PAGE NAME..` prints these parts of its data as JSON, a line for
each; the part `journal` is the journal itself, and the part `counts` is how many events, threads, levels, waits and
arrows there are."""

import json
import re
import sys
from pathlib import Path

page = Path(sys.argv[1]).read_text(encoding="utf-8")
data = json.loads(re.search(r'id="data">(.*?)</script>', page).group(1))
data["journal"] = re.search(r'id="journal">(.*?)</script>', page, re.S).group(1)
data["counts"] = [
    data["events"],
    len(data["threads"]),
    len(data["bars"]) // 6,
    len(data["waits"]) // 4,
    len(data["arrows"]) // 3,
]
for name in sys.argv[2:]:
    print(data[name] if name == "journal" else json.dumps(data[name], separators=(",", ":")))
