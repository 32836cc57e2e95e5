#!/usr/bin/env python3
"""Posts the records of miniSEED 2 files to an archive: feed.py URL USER FILE..

The password is the value of VELKATSA_PASSWORD. The records of a file go in batches of at most 1 MiB, each under the next
number of this user. The first number of a file is noted beside it, in FILE.first, before anything is sent: a batch that
comes a second time under its number is answered as the first time and adds nothing, so after a lost connection, or a lost
process, the same command goes on where it was. Needs Python's standard library alone.
"""
import hashlib
import http.client
import os
import re
import sys
import time
import urllib.parse

MOST = 1_048_576
TRIES = 60


def md5(text):
    return hashlib.md5(text.encode()).hexdigest()


class Feed:
    """A user's way to the archive, over one connection that is opened again where it breaks."""

    def __init__(self, url, user, password):
        place = urllib.parse.urlsplit(url)
        kind = http.client.HTTPSConnection if place.scheme == "https" else http.client.HTTPConnection
        self.link, self.user, self.nonce = kind(place.hostname, place.port, timeout=60), user, None
        self.secret = md5(f"{user}:FDSN:{password}")

    def asked(self, target, body):
        """One request, with the answer to the last challenge (RFC 2617)."""
        fields = {"Content-Type": "application/vnd.fdsn.mseed"}
        if self.nonce:
            response = md5(f"{self.secret}:{self.nonce}:{md5('POST:' + target)}")
            fields["Authorization"] = f'Digest username="{self.user}", realm="FDSN", nonce="{self.nonce}", uri="{target}", response="{response}"'
        self.link.request("POST", target, body, fields)
        reply = self.link.getresponse()
        challenge = re.search('nonce="([^"]*)"', reply.headers.get("WWW-Authenticate", ""))
        self.nonce = challenge[1] if challenge else self.nonce
        return reply.status, reply.read().decode().strip()

    def post(self, number, body):
        """Posts a batch under its number until it is answered, and gives the status and the text."""
        target = f"/feed/1/batch?seq={number}"
        for wait in range(TRIES):
            try:
                status, text = self.asked(target, body)
                if status == 401:
                    status, text = self.asked(target, body)
                # 429 and 5xx are said by what stands in front, or by an archive that has to be started again.
                if status < 429:
                    return status, text
            except (OSError, http.client.HTTPException) as error:
                self.link.close()
                text = repr(error)
            time.sleep(min(wait, 10))
        raise SystemExit(f"batch {number}: {text}")

    def next_number(self, body):
        """The number that this user has to post next: one that is far too high is answered with the last."""
        status, text = self.post(10**17, body)
        gap = re.search("sequence gap after ([0-9]+)", text)
        if not gap:
            raise SystemExit(f"{status} {text}")
        return int(gap[1]) + 1


def batches(path):
    """The records of the file, in batches that end with a record. All records of the file have one length."""
    with open(path, "rb") as it:
        content = it.read()
    length = 2 ** content[54] if len(content) > 54 else 512
    most = MOST // length * length
    return [content[at : at + most] for at in range(0, len(content), most)]


def send(feed, path):
    parts, note = batches(path), path + ".first"
    if not parts:
        return
    if not os.path.exists(note):
        first = feed.next_number(parts[0])
        with open(note + ".new", "w", encoding="utf-8") as it:
            it.write(str(first))
            it.flush()
            os.fsync(it.fileno())
        os.replace(note + ".new", note)
    with open(note, encoding="utf-8") as it:
        first = int(it.read())
    for number, body in enumerate(parts, first):
        status, text = feed.post(number, body)
        if status != 200:
            raise SystemExit(f"{path}: batch {number}: {text}")
        print(f"{path}: batch {number}: {text}")


def main():
    if len(sys.argv) < 4 or "VELKATSA_PASSWORD" not in os.environ:
        raise SystemExit(__doc__)
    feed = Feed(sys.argv[1], sys.argv[2], os.environ["VELKATSA_PASSWORD"])
    for path in sys.argv[3:]:
        send(feed, path)


if __name__ == "__main__":
    main()
