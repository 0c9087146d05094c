#!/usr/bin/env bash
# Puts a backup in the place of a broker's file, and keeps what was there.
# Usage: restore.sh PROGRAM COPY FILE [SERVICE [URL]]
#   SERVICE is the name of the service that serves FILE (systemctl): it is stopped, started again, and asked at URL,
#   which is http://127.0.0.1:9292 if it isn't given. Run this as root. Without SERVICE nobody may have FILE open.
# Needs sqlite3 and curl (the Debian packages). COPY is tested before anything is changed. FILE and its log, if they are
# still there, are kept in a new folder, FILE.before-DATE.XXXXXX, with the date in UTC; COPY stays too. The new FILE
# belongs to the owner of its folder, who alone may read it. Ends with 0 if all is done, and with 1 if it isn't; the
# last line says what is left to do. If it is ended in the middle, it puts back what was there, and starts the service;
# if it is killed by signal 9, the next run puts it back first, and until then the service may be stopped.
set -euo pipefail
. "$(dirname -- "$0")/common.sh"
program=${1:?the path of the program broker}
copy=${2:?the backup}
file=${3:?the file of the broker}
service=${4-}
url=${5-http://127.0.0.1:9292}
need curl sqlite3 "$program"
copy=$(real_path "$copy")
file=$(real_path "$file")
folder=$(dirname -- "$file")
name=$(basename -- "$file")
[ -d "$folder" ] || fail "$folder isn't a folder"
lock "$file"
[ -z "$service" ] || systemctl cat "$service" > /dev/null || fail "there is no service $service"

# A restore is a folder beside FILE, FILE.restoring.XXXXXX. In new/ are FILE and its log as they are to be; in old/
# those that were there, and once both are, old/all. FILE itself comes last into its place: nobody serves half of it.
# step TEXT: lines of sh in this folder, as the owner of what it is in, with the name of FILE as $1.
step() { as_owner "$folder" sh -euc "umask 077; cd -- \"\$0\"; $1" "$room" "$name"; }
TAKE='mkdir old
  for end in "" -wal; do [ ! -e "../$1$end" ] || mv -- "../$1$end" old/; done
  : > old/all'
PLACE='for end in -wal ""; do [ ! -e "new/$1$end" ] || mv -- "new/$1$end" ..; done
  sync ..'
# Back to what was there, unless the new FILE is in its place. A log without FILE is the new one if old/all is there.
UNDO='[ -d old ] && [ ! -e "../$1" ] || exit 0
  [ ! -e old/all ] || rm -f -- "../$1-wal" old/all
  for end in -wal ""; do [ ! -e "old/$1$end" ] || mv -- "old/$1$end" ..; done
  sync ..'
# What was there gets a name that nothing else has, by one rename.
KEEP='[ -d old ] || exit 0
  rm -f old/all
  if rmdir old 2> /dev/null; then exit 0; fi
  rmdir -- "../$1".before-*.?????? 2> /dev/null || true
  kept=$(mktemp -d -- "${PWD%/*}/$1.before-$(date -u +%Y-%m-%dT%H%M%SZ).XXXXXX")
  mv -T -- old "$kept"
  echo "what was there is kept in $kept"'
end_restore() {
  step "$UNDO"
  step "$KEEP"
  as_owner "$folder" rm -rf -- "$room"
  room=
}

# Not with the lock, nor without the signals that are ignored in the end.
begin() { (trap - HUP INT TERM; systemctl start "$service" 9<&-); }
stopped='' room=''
clean_up() {
  ended=$?
  trap '' HUP INT TERM
  trap - EXIT
  [ -z "$room" ] || end_restore || echo "run restore.sh again: $room is half done" >&2
  [ -z "$stopped" ] || begin || echo "$service is stopped: start it" >&2
  [ "$ended" = 0 ] || exit 1
}
# By itself: a signal that comes as the script ends would end it before what it has to do at EXIT.
trap 'clean_up; exit 1' HUP INT TERM
trap clean_up EXIT

# Nobody else restores this file now, so these are of runs that were killed.
for room in "$file".restoring.??????; do
  if [ -d "$room" ]; then
    end_restore
    echo "a restore that was broken off is ended: $file is the one of before, or the new one if that was in its place"
  fi
done
room=

said=$("$(dirname -- "$0")/test-copy.sh" "$program" "$copy") || fail "nothing is changed: $copy can't be served"
echo "$copy holds $said"
room=$(as_owner "$folder" mktemp -d -- "$file.restoring.XXXXXX")
step 'mkdir new'
# A backup of an earlier backup.sh may have a log, as a snapshot has.
for end in "" -wal; do
  [ ! -e "$copy$end" ] || step "cat > \"new/\$1$end\"; sync -- \"new/\$1$end\"" < "$copy$end"
done
[ -z "$service" ] || { stopped=yes; systemctl stop "$service"; }
! is_open "$file" || fail "nothing is changed: $file is in use: stop the service, or say its name"
step "$TAKE"
step "$PLACE"
end_restore
set -- "$file".before-*
[ ! -e "$1" ] || [ $# = 1 ] || echo "$# of these are in $folder: remove those that nobody needs"

if [ -z "$service" ]; then
  echo "$file is restored: start the broker"
  exit
fi
begin || { stopped=; fail "$file is restored, but $service doesn't start: journalctl -u $service"; }
stopped=
# A broker that serves answers so to anybody; the opening of a large file takes a while.
last=$((SECONDS + $(patience "$file")))
until said=$(curl -q -sS -m 10 --noproxy '*' "$url/" 2>&1); do
  [ "$SECONDS" -lt "$last" ] || break
  sleep 0.2
done
[ "$said" = '{"answer":"no route"}' ] || fail "$file is restored, but $service doesn't answer at $url: $said"
echo "$file is restored, and $service serves it"
