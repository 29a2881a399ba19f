"""Writes each change in a server's logs to a file of its table and the day of its commit, once: warehouse.py FOLDER LOGS [--follow]"""
import fcntl
import json
import os
import sys
import time
from collections import defaultdict
from pathlib import Path
from typing import TextIO

sys.path.insert(0, str(Path(__file__).resolve().parents[2] / "python"))
from binlogfeed import BinLogStreamReader  # noqa: E402


def on_disk(file: TextIO, text: str) -> int:
    """Writes a text, waits until the disk has it, and answers how long the file is then."""
    file.write(text)
    file.flush()
    os.fsync(file.fileno())
    return file.tell()


def main(folder: str, logs: str, *options: str) -> None:
    """Takes what is new. The manifest has how much of each file counts, and the place behind that."""
    manifest, new, lock = (Path(folder, name) for name in ("manifest.json", "manifest.new", "lock"))
    fcntl.flock(os.open(lock, os.O_CREAT | os.O_RDWR), fcntl.LOCK_EX | fcntl.LOCK_NB)
    kept = json.loads(manifest.read_text()) if manifest.exists() else {"place": None, "sizes": {}}
    for path in Path(folder).glob("*.jsonl"):
        # A kill may have left more than counts.
        os.truncate(path, kept["sizes"].get(path.name, 0))
    with BinLogStreamReader(logs, resume=kept["place"], blocking="--follow" in options, together=False) as reader:
        for batch in reader.batches(rows=10000, seconds=10.0):
            texts: dict[str, str] = defaultdict(str)
            for event in (event for transaction in batch for event in transaction):
                day = time.strftime("%Y-%m-%d", time.gmtime(event.committed // 10**6 if event.committed else event.timestamp))
                texts[f"{event.schema}.{event.table}.{day}.jsonl"] += event.to_json() + "\n"
            for name, text in texts.items():
                with open(Path(folder, name), "a", encoding="utf-8") as file:
                    kept["sizes"][name] = on_disk(file, text)
            kept["place"] = reader.place.to_text()
            with open(new, "w", encoding="utf-8") as file:
                on_disk(file, json.dumps(kept, indent=1))
            os.replace(new, manifest)


if __name__ == "__main__":
    main(*sys.argv[1:])
