#!/bin/sh
# What curl asks of an archive: ask.sh URL OPERATOR FEED FILE. The two users have the password VELKATSA_PASSWORD. The operator
# adds the user FEED and describes a network; FEED posts the records of FILE; and everybody asks for them.
set -e
url=$1 operator=$2 feed=$3 file=$4
ha1=$(printf '%s:FDSN:%s' "$feed" "$VELKATSA_PASSWORD" | md5sum | cut -c 1-32)

# A revision: lines that add users and epochs, under the next number of the operator.
printf 'USR|%s|%s|feed\nNET|IU|Global Seismograph Network|1988-01-01|\n' "$feed" "$ha1" |
    curl -sS --digest -u "$operator:$VELKATSA_PASSWORD" --data-binary @- "$url/feed/1/revise?seq=1"

# A batch of records, under the next number of the feed. Sent again, it is answered with the same number.
curl -sS --digest -u "$feed:$VELKATSA_PASSWORD" --data-binary "@$file" "$url/feed/1/batch?seq=1"

# Questions: one line of parameters, or lines of selections. `-f` makes curl fail where there is an error.
curl -sSf "$url/fdsnws/station/1/query?level=network&format=text"
curl -sSf "$url/fdsnws/availability/1/query?net=IU&merge=overlap"
curl -sSf "$url/fdsnws/dataselect/1/query?net=IU&sta=ANMO&start=2024-02-01&end=2024-02-02" -o one.mseed
printf 'quality=B\nIU ANMO 00 BHZ 2024-02-01T00:00:00 2024-02-02T00:00:00\nIU COLA * BH? 2024-02-01T00:00:00 *\n' |
    curl -sSf --data-binary @- "$url/fdsnws/dataselect/1/query" -o several.mseed
