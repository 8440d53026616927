#!/usr/bin/env bash
# Times the proved program on a real folder and prints a table: messages a second, and octets a second.
# usage: bench/session.sh [MESSAGES]
set -eu
root=$(cd "$(dirname "$0")/.." && pwd)
messages=${1:-500}
program=$root/crates/transport_cli/out/transport_cli
[ -x "$program" ] || { echo "bench: build the program first: ./yeqorchi session < examples/first.smtp" >&2; exit 1; }
work=$(mktemp -d)
trap 'rm -rf "$work"' EXIT
cd "$work"

# make_session KIND COUNT: a session of COUNT distinct messages
#   small: bodies of 1 KiB; large: bodies of nearly 1 MiB; dots: nearly 1 MiB of lines that begin with a dot;
#   fields: nearly 1 MiB of 10,000 header fields, and no Message-Id, so that the hub sets one
make_session() {
  python3 - "$1" "$2" <<'PY'
import sys
kind, count = sys.argv[1], int(sys.argv[2])
out = sys.stdout
line = "x" * 70 + "\r\n"
body = {"small": line * 14, "large": line * 14400, "dots": ("..\r\n") * 260000, "fields": "body\r\n"}[kind]
fields = "".join(f"X-Field-{n:05d}: {'v' * 85}\r\n" for n in range(10000)) if kind == "fields" else ""
out.write("EHLO bench\r\n")
for n in range(count):
    head = fields or f"Message-Id: <{n}@bench>\r\n"
    out.write(f"MAIL FROM:<ann@example.com>\r\nRCPT TO:<bob@example.com>\r\nDATA\r\n{head}\r\n{body}.\r\n")
out.write("QUIT\r\n")
PY
}

# in_pieces OCTETS: copies the file input to the output, OCTETS in each write
in_pieces() {
  python3 -c '
import os, sys
size, text = int(sys.argv[1]), open("input", "rb").read()
for at in range(0, len(text), size):
    os.write(1, text[at:at + size])' "$1"
}

# row NAME NANOSECONDS ACCEPTED
row() {
  awk -v name="$1" -v n="$3" -v octets="$(stat -c %s input)" -v ns="$2" \
    'BEGIN { s = ns / 1e9; printf "%-40s %8d %10.3f %12.1f %14.0f\n", name, n, s, n / s, octets / s }'
}

# timed NAME KIND COUNT [OCTETS OF A PIECE]
timed() {
  rm -rf hub
  make_session "$2" "$3" > input
  local begin end
  begin=$(date +%s%N)
  if [ $# -gt 3 ]; then in_pieces "$4" | "$program" session > output; else "$program" session < input > output; fi
  end=$(date +%s%N)
  row "$1" $((end - begin)) "$(grep -c '^250 Accepted' output)"
}

# what writing the same octets once, and syncing them, takes
copied() {
  make_session "$2" 1 > input
  local begin end
  begin=$(date +%s%N)
  dd if=input of=copy bs=1M conv=fsync status=none
  end=$(date +%s%N)
  row "$1" $((end - begin)) 0
}

# opened NAME: what opening the log of the last load takes
opened() {
  cp hub/queue.log input
  local begin end
  begin=$(date +%s%N)
  "$program" session < /dev/null > output
  end=$(date +%s%N)
  row "$1" $((end - begin)) 0
}

# synced NAME COUNT: so many writes of 512 octets, each synced
synced() {
  dd if=/dev/zero of=input bs=512 count="$2" status=none
  local begin end
  begin=$(date +%s%N)
  dd if=input of=copy bs=512 oflag=dsync status=none
  end=$(date +%s%N)
  row "$1" $((end - begin)) "$2"
}

printf '%-40s %8s %10s %12s %14s\n' load messages seconds messages/s octets/s
# The row of syncs alone says how many of them this disk makes in a second; bench/syncs.py counts how many a message needs.
timed "messages of 1 KiB" small "$messages"
synced "syncs of this disk" $((4 * messages))
timed "a message of 1 MiB" large 1
timed "a message of 1 MiB, 10,000 fields" fields 1
copied "a copy of the same file, synced" fields
for piece in 1 17 65536; do
  timed "1 MiB of dot lines, in pieces of $piece" dots 1 "$piece"
done

# The program's own work, where syncs cost nothing: each message makes three entries of the log, so the last of these
# logs has 100,000.
if [ -d /dev/shm ]; then
  rm -rf "$work"
  work=$(mktemp -d -p /dev/shm)
  cd "$work"
  for count in 1000 10000 33333; do
    timed "$count messages, in memory" small "$count"
    opened "opening the log of $count messages"
  done
fi
