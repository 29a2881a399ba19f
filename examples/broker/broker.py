"""Publishes each change in a server's logs to a stream of NATS JetStream, once: broker.py HOST PORT LOGS [--follow]"""
import json
import socket
import sys
from base64 import b64decode
from pathlib import Path
from typing import Any
from uuid import uuid4

sys.path.insert(0, str(Path(__file__).resolve().parents[2] / "python"))
from binlogfeed import BinLogStreamReader  # noqa: E402

INBOX = f"_INBOX.{uuid4().hex}"
STREAM = '{"name":"binlogfeed","subjects":["binlogfeed.>"],"storage":"file"}'


def asked(nats: Any, subject: str, text: str, *headers: str) -> dict[str, Any]:
    """What the server answers to a message."""
    head, body = "".join(f"{line}\r\n" for line in ("NATS/1.0", *headers, "")).encode(), text.encode()
    nats.write(f"HPUB {subject} {INBOX} {len(head)} {len(head) + len(body)}\r\n".encode() + head + body + b"\r\n")
    while True:
        nats.flush()
        kind, *words = nats.readline().split() or [b"the end of the connection"]
        if kind == b"MSG":
            return dict(json.loads(nats.read(int(words[-1]) + 2)))
        if kind == b"PING":
            nats.write(b"PONG\r\n")
        elif kind != b"INFO":
            sys.exit(f"NATS answers {[kind, *words]}, and no JetStream")


def main(host: str, port: str, logs: str, *options: str) -> None:
    """Publishes what is new behind the stream's last message, which has its place. Each message names the one before it."""
    nats = socket.create_connection((host, int(port))).makefile("rwb")
    nats.write(f'CONNECT {{"verbose":false,"headers":true,"no_responders":true}}\r\nSUB {INBOX} 1\r\n'.encode())
    asked(nats, "$JS.API.STREAM.CREATE.binlogfeed", STREAM)
    last = asked(nats, "$JS.API.STREAM.MSG.GET.binlogfeed", '{"last_by_subj":"binlogfeed.>"}').get("message", {"seq": 0, "hdrs": ""})
    place = b64decode(last["hdrs"]).decode().partition("Place: ")[2].strip() or None
    with BinLogStreamReader(logs, resume=place, blocking="--follow" in options, together=False) as reader:
        for event in reader:
            headers = f"Nats-Msg-Id: {event.token}", f"Nats-Expected-Last-Sequence: {last['seq']}", f"Place: {reader.place.to_text()}"
            last = asked(nats, f"binlogfeed.{event.schema}.{event.table}", event.to_json(), *headers)
            if "error" in last:
                sys.exit(f"NATS refuses {event.token}: {last['error']}")


if __name__ == "__main__":
    main(*sys.argv[1:])
