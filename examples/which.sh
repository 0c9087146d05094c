#!/usr/bin/env bash
# Says why the program doesn't open a broker's file, if it ended with status 3 and the line `file` or `open`: the last
# line is a sentence with the cause and the path. If it declares other tables, views, indexes or triggers than a new
# broker's file, those before it name them; for that a copy of it is read by sqlite3, if that is there. Nothing is changed.
# Usage: which.sh PROGRAM FILE USER     as root; USER is that of the service
# As ExecStopPost of a unit it says nothing unless the service ended with status 3.
set -u
. "$(dirname -- "$0")/common.sh"
program=${1:?the path of the program broker} f=${2:?the file of the broker} user=${3:?the user of the service}
[ "${EXIT_STATUS-3}" = 3 ] || exit 0
f=$(real_path "$f" 2> /dev/null) || f=$2
as_user() { runuser -u "$user" -- "$@"; }
# What a database declares: objects by type and name, columns with their types.
declared() {
  sql "$1" "SELECT type || ' ' || name FROM sqlite_master WHERE name NOT LIKE 'sqlite_%'
    UNION ALL SELECT 'column ' || m.name || '.' || c.name || ' ' || c.type
    FROM sqlite_master m JOIN pragma_table_info(m.name) c WHERE m.type = 'table'" 2>&1 | sort
}
# What differs from that of a new file, a line each.
differs() {
  command -v sqlite3 > /dev/null && room=$(mktemp -d) || return 0
  cp -- "$f" "$room/f.db" && { [ ! -f "$f-wal" ] || cp -- "$f-wal" "$room/f.db-wal"; } &&
    "$program" init --file "$room/new.db" --office-token 0000000000000000 > /dev/null &&
    comm -3 <(declared "$room/f.db") <(declared "$room/new.db") | sed 's/^\t/it lacks: /; t; s/^/it has also: /'
  rm -r -- "$room"
}
users=$(for it in /proc/[0-9]*/fd/*; do if [ "$it" -ef "$f" ]; then echo "$it"; fi; done)
if [ ! -e "$f" ]; then echo "missing: there is no file $f"
elif [ ! -f "$f" ]; then echo "foreign: $f is no plain file"
elif [ "$users" ]; then echo "$users"; echo "in use, by /proc/NUMBER/..: stop the process that has $f open"
elif { [ -e "$f-wal" ] || [ -L "$f-wal" ]; } && [ ! -f "$f-wal" ]; then echo "odd log: $f-wal is no plain file"
elif ! as_user sh -c 'for it in "$1" "${1%/*}" "$1-wal"; do
  [ ! -e "$it" ] || { [ -r "$it" ] && [ -w "$it" ]; } || exit 1; done' sh "$f"; then
  echo "forbidden: $user may not read and write $f, its log and their folder"
elif [ "$(stat -c %h -- "$f")" != 1 ]; then
  echo "linked: $f has a second name, which find / -xdev -samefile $f says: remove that one"
elif [ "$(head -c 15 -- "$f")" != "SQLite format 3" ]; then echo "foreign: $f is no database"
else
  words=(--token 0000000000000000 --pacticipant none --version none --to-environment none)
  case $(as_user "$program" can-i-deploy --file "$f" "${words[@]}" 2>&1) in
    '{"answer":'*) echo "sound: $f is opened now; after the line listen see by ss -ltnp who has the port, else" \
      "look at the limits of the service, as its memory and open files" ;;
    file) echo "damaged: restore the latest backup of $f, and look for errors of the disk" ;;
    'open 5') echo "damaged: the database fails while $f is opened: look for errors of the disk, and for room on it" ;;
    *'open 3.'*) echo "older: $f is of another format, which docs/OPERATING.md has under An older file" ;;
    *'open 2') differs; echo "foreign: $f doesn't declare what a broker's file does" ;;
    *) echo "unknown: $program opens $f neither as a broker's file nor as another one" ;;
  esac
fi
