#!/usr/bin/env bash
# Tests a backup of a broker's file, as backup.sh and restore.sh do: the program opens a copy of it, which reads every
# page, and sqlite3 finds another copy sound. The backup stays as it is. Says how much is in it.
# Usage: test-copy.sh PROGRAM COPY
# Needs sqlite3 (the Debian package sqlite3), and as much room as COPY takes: beside it, or if that is read-only, as a
# snapshot, in TMPDIR (/var/tmp if it isn't set). Ends with 0 if COPY is sound, with 2 if it is sound but of a format
# that this program doesn't serve, and else with 1.
set -eu
. "$(dirname -- "$0")/common.sh"
program=${1:?the path of the program broker}
copy=${2:?the backup}
need sqlite3 "$program"
[ -f "$copy" ] || fail "$copy isn't there"
copy=$(real_path "$copy")
umask 077

copying='' room=''
# By itself: a signal that comes as the script ends would end it before what it has to do at EXIT.
trap 'clean_up; exit 1' HUP INT TERM
clean_up() {
  ended=$?
  kill ${copying:-} 2> /dev/null || true
  [ -z "$room" ] || rm -rf -- "$room"
  [ "$ended" -le 2 ] || exit 1
}
trap clean_up EXIT
beside=$(dirname -- "$copy")
[ -w "$beside" ] || beside=${TMPDIR:-/var/tmp}
make_room "$beside/$(basename -- "$copy").test"

# A copy to open, since who opens one may write to it: the file, and its log if it has one.
lend() {
  for end in "" -wal; do
    [ -e "$copy$end" ] || continue
    cp -- "$copy$end" "$1$end" & copying=$!
    wait "$copying"
    copying=
  done
}

lend "$room/a.db"
said=$("$program" can-i-deploy --file "$room/a.db" --token 0000000000000000 --pacticipant none --version none \
  --to-environment none 2>&1) || true
rm -f -- "$room/a.db"*
case $said in
  '{"answer":'*) ended=0 ;;
  'open 3.'*) ended=2 ;;
  *) fail "the broker doesn't open $copy: $said" ;;
esac
lend "$room/b.db"
said=$(sql "$room/b.db" 'PRAGMA integrity_check; PRAGMA foreign_key_check' 2>&1) || true
[ "$said" = ok ] || fail "$copy isn't sound: $said"
sql "$room/b.db" "SELECT 'format ' || format || ' with ' || n || iif(n = 1, ' contract', ' contracts')
  FROM meta, (SELECT count(*) AS n FROM contracts)"
exit $ended
