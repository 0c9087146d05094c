#!/usr/bin/env bash
# Copies the file of a broker, also while it serves, and tests the copy. Nothing is written to the file.
# Usage: backup.sh PROGRAM FILE COPY [BROKER]
#   BROKER is the process that serves the file, by its number or by the name of its service (systemctl); run this as its
#   user or as root. Without BROKER nobody may have the file open, so stop the service first.
# Needs sqlite3 (the Debian package sqlite3), Linux, and beside the copy as much room again as it takes. COPY is one
# file with all rows. Ends with 0 if it is there and tested; else with 1 and without it. While another of these scripts
# works on FILE, it waits for as long as that may take by the size of FILE: ten minutes, and ten seconds for each MB.
#
# Why a copy of a broker that serves is right: it is paused (signal STOP) while its two files are copied byte for byte.
# They are then what is there if the program is killed at that moment, and this is a sound file with all that was
# acknowledged, at any moment. Nobody is served for as long as the copying takes, under a quarter of a second for a file
# of 50 MB on a local disk; who asks meanwhile waits. If COPY is on another disk, which may be slow, the files are
# copied beside FILE first, if its disk has room for that. The pause ends before the copy is tested, and however this
# script ends: a second process ends it after 30 seconds, or if this one is killed, by signal 9 too. sqlite3's own
# .backup and VACUUM are no way: they can't read a file in use, and what they make has wrong sums.
#
# The newest rows are in the second file, the log, and without it the first one opens too, but lacks them. So the
# program moves them into the first one, which it does when it ends by itself: it serves the copy for one connection, on
# a port of loopback, and nothing is asked.
set -euo pipefail
. "$(dirname -- "$0")/common.sh"
program=${1:?the path of the program broker}
file=${2:?the file of the broker}
copy=${3:?the file to make}
broker=${4-}
need sqlite3 "$program"
[ -f "$file" ] || fail "$file isn't there"
file=$(real_path "$file")
copy=$(real_path "$copy")
folder=$(dirname -- "$file")
umask 077
lock "$file"
[ ! -e "$copy" ] && [ ! -e "$copy-wal" ] || fail "$copy is there already"

case $broker in
  "") pid= ;;
  *[!0-9]*)
    about_service() { systemctl show --property "$1" --value "$broker"; }
    for _ in $(seq "$(patience "$file")"); do
      [ "$(about_service ActiveState)" = activating ] || break
      sleep 1
    done
    pid=$(about_service MainPID)
    [ "$pid" != 0 ] || fail "the service $broker isn't running"
    send() { systemctl kill --signal "$1" "$broker"; }
    ;;
  *)
    pid=$broker
    send() { kill -s "$1" "$pid"; }
    ;;
esac

# What is known of the process: whether it is stopped, and how often it ran.
about() { grep -hE '^State|ctxt_switches' "/proc/$pid/task/"*/status; }
let_go() { send CONT || kill -s CONT "$pid"; }
# Ends the pause in the place of this script, if that is killed or takes too long: in a group of processes of its own.
guard() {
  local script=$$
  set -m
  (
    trap 'let_go; exit' HUP INT TERM
    for _ in $(seq 300); do
      kill -0 "$script" 2> /dev/null || break
      sleep 0.1
    done
    let_go
  ) > /dev/null 2>&1 < /dev/null &
  guard=$!
  set +m
}
# It is stopped when the system says so: the signal alone may come in the middle of a write.
pause() {
  guard
  paused=yes
  send STOP
  for _ in $(seq 1 2000); do
    sleep 0.005
    [ -z "$(grep -LE '^State:.T' "/proc/$pid/task/"*/status)" ] && return
  done
  fail "process $pid doesn't stop"
}
go_on() {
  [ -n "$paused" ] || return 0
  let_go
  paused=
  kill "$guard" 2> /dev/null || true
}

paused='' room='' near='' child=''
# By itself: a signal that comes as the script ends would end it before what it has to do at EXIT.
trap 'clean_up; exit 1' HUP INT TERM
# It ends with 1 also if a command failed with another status, or a signal in the middle of $(..) ended bash with 2.
clean_up() {
  ended=$?
  go_on || true
  kill ${child:-} 2> /dev/null || true
  [ -z "$room" ] || rm -rf -- "$room"
  [ -z "$near" ] || as_owner "$folder" rm -rf -- "$near"
  [ "$ended" = 0 ] || exit 1
}
trap clean_up EXIT
make_room "$copy"

# What was begun is waited for, so that a signal ends this script also if that hangs.
await() {
  child=$!
  wait "$child" || { child=; return 1; }
  child=
}

# copy_pair FROM TO [WORDS..]: both files, as they are, by cp after these words.
copy_pair() {
  local from=$1 to=$2 end
  shift 2
  for end in "" -wal; do
    [ -e "$from$end" ] || continue
    "$@" cp --reflink=auto -- "$from$end" "$to$end" &
    await
  done
}

# A folder beside the file, if the copy is on another disk and this one has room for a copy and twice as much again.
make_near() {
  local size=0 end free
  for end in "" -wal; do [ ! -e "$file$end" ] || size=$((size + $(stat -c %s -- "$file$end"))); done
  free=$(df --output=avail -B 1 -- "$folder" | tail -n 1)
  # Nobody else works on this file, so these are of scripts that were killed.
  as_owner "$folder" rm -rf -- "$file".copying.??????
  [ "$(stat -c %d -- "$folder")" != "$(stat -c %d -- "$room")" ] && [ "$free" -gt $((3 * size)) ] || return 0
  near=$(as_owner "$folder" mktemp -d -- "$file.copying.XXXXXX" 2> /dev/null) || near=
}

part=$room/part.db
if [ -n "$pid" ]; then
  [ -n "$(find -L "/proc/$pid/fd" -samefile "$file" 2> /dev/null)" ] || fail "process $pid doesn't have $file open"
  make_near
  began=$(date +%s%N)
  pause
  before=$(about)
  if [ -n "$near" ]; then copy_pair "$file" "$near/part.db" as_owner "$folder"; else copy_pair "$file" "$part"; fi
  [ "$(about)" = "$before" ] || fail "somebody let the broker go on while its file was copied: try again"
  go_on
  pause_said=", and the broker was paused for $((($(date +%s%N) - began) / 1000000)) ms"
  if [ -n "$near" ]; then
    copy_pair "$near/part.db" "$part"
    as_owner "$folder" rm -rf -- "$near"
    near=
  fi
else
  ! is_open "$file" || fail "$file is in use: stop the service, or say which process serves it"
  copy_pair "$file" "$part"
  ! is_open "$file" || fail "$file was opened while it was copied: try again"
  pause_said=
fi

# rows DIGEST: writes a digest of all rows of the copy and its log. sqlite3 reads another copy, since it writes to what
# it opens.
rows() {
  copy_pair "$part" "$room/a.db"
  sql "$room/a.db" .dump | sha256sum > "$1"
  rm -f -- "$room/a.db"*
}

# serve_once PORT: serves the copy for one connection, which is made and closed here. If it was somebody else's, it may
# never end: after 10 seconds it is ended here, and nothing is lost.
serve_once() {
  timeout "$(patience "$part")" "$program" serve --file "$part" --listen "127.0.0.1:$1" --connections 1 \
    2> "$room/said" 8<&- 9<&- &
  child=$!
  while kill -0 "$child" 2> /dev/null && ! (: < "/dev/tcp/127.0.0.1/$1") 2> /dev/null; do sleep 0.02; done
  for _ in $(seq 500); do
    kill -0 "$child" 2> /dev/null || break
    sleep 0.02
  done
  kill "$child" 2> /dev/null && echo listen > "$room/said"
  await
}

# Moves what is in the log into the copy. A file of an older format isn't served: sqlite3 does it, as it has no sums.
fold() {
  for _ in 1 2 3 4 5 6 7 8 9; do
    if serve_once $((20000 + RANDOM % 12000)); then return; fi
    case $(cat "$room/said") in
      listen) ;;
      'open 3.'*) sql "$part" 'PRAGMA wal_checkpoint(TRUNCATE)' > /dev/null && return ;;
      *) break ;;
    esac
  done
  fail "the broker doesn't open the copy: $(cat "$room/said")"
}

rows "$room/before"
fold
rm -f -- "$part-wal"
rows "$room/after"
cmp -s "$room/before" "$room/after" || fail "the copy without its log has other rows than with it"
said=$("$(dirname -- "$0")/test-copy.sh" "$program" "$part") || [ $? = 2 ] || exit 1

sync -- "$part"
# Not by mv -n, whose status says nothing: a copy that somebody made meanwhile stays.
ln -- "$part" "$copy" 2> /dev/null || { [ ! -e "$copy" ] && mv -- "$part" "$copy"; } || fail "$copy is there already"
rm -f -- "$part"
sync -- "$(dirname -- "$copy")"
echo "$copy holds $said$pause_said"
