#!/usr/bin/env bash
# Waits until a broker that was started answers, for a unit's ExecStartPost. Ends with 0 then; with 1 if its process ends
# before, or is idle for as long as an opening of FILE may take, which the last line says. As long as the process works
# it is waited for, since an opening reads the whole file.
# Usage: await.sh ADDRESS PROCESS FILE     as 127.0.0.1:9292 "$MAINPID" /var/lib/broker/broker.db
#   as the user of the process, or root
set -u
. "$(dirname -- "$0")/common.sh"
address=${1:?the address of the broker} process=${2:?the process} file=${3:?the file of the broker}
host=${address%:*}
host=${host#[}
answer() {
  exec 3<> "/dev/tcp/${host%]}/${address##*:}" || exit 1
  printf 'GET / HTTP/1.1\r\nhost: %s\r\nconnection: close\r\n\r\n' "$address" >&3
  read -r -t 10 line <&3
  echo "$line"
}
# What the process has used of the processors, in ticks: the 14th and the 15th word of its line, counted after its name.
used() {
  local line words
  read -r line < "/proc/$process/stat" || return
  read -r -a words <<< "${line##*) }"
  echo $((words[11] + words[12]))
}
lost=0 before='' since=$SECONDS
while [ "$lost" -lt 5 ]; do
  case $(answer 2> /dev/null) in 'HTTP/1.1 404'*) exit 0 ;; esac
  if kill -0 "$process" 2> /dev/null; then lost=0; else lost=$((lost + 1)); fi
  now=$(used 2> /dev/null)
  if [ "$now" != "$before" ]; then before=$now since=$SECONDS; fi
  [ $((SECONDS - since)) -le "$(patience "$file")" ] ||
    fail "process $process, idle for $((SECONDS - since)) seconds, doesn't answer at $address: is it to serve $file there?"
  sleep 0.2
done
exit 1
