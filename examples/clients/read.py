#!/usr/bin/env python3
"""Asks an archive for records as a user: read.py URL USER FRONT KEY=VALUE.. > records.mseed

The password is the value of VELKATSA_PASSWORD. FRONT is the number of entries that the answer has to rest on at least: the
number behind `accepted` that a feed was told, or 0. Without it an answer may rest on a few entries less than were just
posted. KEY=VALUE are parameters of fdsnws-dataselect 1, such as net=IU start=2024-02-01. Needs Python's `requests`.
"""
import os
import sys

import requests


def main():
    if len(sys.argv) < 4 or "VELKATSA_PASSWORD" not in os.environ:
        raise SystemExit(__doc__)
    url, user, front, *asked = sys.argv[1:]
    session = requests.Session()
    session.auth = requests.auth.HTTPDigestAuth(user, os.environ["VELKATSA_PASSWORD"])
    reply = session.get(
        f"{url}/fdsnws/dataselect/1/queryauth",
        params=dict(word.split("=", 1) for word in asked),
        headers={"X-Archive-Front": front} if front != "0" else {},
        timeout=120,
    )
    if reply.status_code == 204:
        raise SystemExit("no data")
    if reply.status_code != 200:
        raise SystemExit(reply.text.strip())
    sys.stdout.buffer.write(reply.content)
    print(f"{len(reply.content)} bytes over {reply.headers['X-Archive-Front']} entries", file=sys.stderr)


if __name__ == "__main__":
    main()
