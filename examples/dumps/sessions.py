"""Prints a stream of requests: a desk over the postal registry, and the sessions of 20 clerks, 5,000 each.

    python3 examples/dumps/sessions.py > sessions.http
"""

import sys
from pathlib import Path

POSTAL = Path(__file__).resolve().parents[1] / "postal"
CLERKS = 20
SESSIONS = 5_000
ZIPS = ["EH7 4AA", "EH8 9YL", "G1 1XQ", "G2 4JR", "AB10 1AB", "DD1 4HN", "KA6 7PD", "ZZ1 1ZZ"]
EDITION = b'{"folded":["zip"],"masters":[["post",1],["areas",1]],"rulebook":["postal",1]}'


def post(target: str, body: bytes) -> bytes:
    """A request that writes."""
    return f"POST {target} HTTP/1.1\r\nContent-Length: {len(body)}\r\n\r\n".encode() + body


def published() -> list[tuple[str, bytes]]:
    """What the steward publishes, each with the end of its target."""
    return [
        *(("clerks", f'{{"name":"clerk{clerk}"}}'.encode()) for clerk in range(1, CLERKS + 1)),
        ("schemas", (POSTAL / "address.toml").read_bytes()),
        ("masters/post", (POSTAL / "post.csv").read_bytes()),
        ("masters/areas", (POSTAL / "areas.csv").read_bytes()),
        ("rulebooks/postal/address/1", (POSTAL / "rules.txt").read_bytes()),
        ("editions/postal", EDITION),
    ]


def entered(clerk: int, session: int) -> bytes:
    """A session of a clerk, whose zip and street are confirmed."""
    zip_code = ZIPS[(clerk + session) % len(ZIPS)]
    body = f'{{"cells":{{"zip":"{zip_code}","street":"{session} Mill Lane"}},"confirmed":["zip","street"]}}'
    return post(f"/do/clerk{clerk}/{session}/open/postal", body.encode())


def main() -> None:
    """Prints the stream."""
    out = sys.stdout.buffer
    for number, (rest, body) in enumerate(published(), start=1):
        out.write(post(f"/steward/{number}/{rest}", body))
    for clerk in range(1, CLERKS + 1):
        for session in range(1, SESSIONS + 1):
            out.write(entered(clerk, session))


if __name__ == "__main__":
    main()
