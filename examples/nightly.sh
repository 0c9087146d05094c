#!/usr/bin/env bash
# Makes the backup of a night, a page of what it says and of what has changed since the one of the night before, and an
# audit of it: whether its tables hold a state of the broker.
# Usage: nightly.sh PROGRAM FILE FOLDER KEEP REPORT [BROKER]
#   REPORT is the page, which tools/report makes. FOLDER has only the copies of nights; the rest is as keep-copies.sh
#   has it, which makes the copy and keeps the newest ones.
# Ends with 1 if there is no new copy, or no new page; the page of before is then as it was. So it does if the audit finds
# a row that breaks a rule, and says which: the copy and the page are made all the same.
set -euo pipefail
. "$(dirname -- "$0")/common.sh"
program=${1:?the path of the program broker}
file=${2:?the file of the broker}
folder=${3:?the folder of the copies}
keep=${4:?how many copies to keep}
report=${5:?the page}
here=$(dirname -- "$0")
folder=$(real_path "$folder")
umask 077
"$here/keep-copies.sh" "$program" "$file" "$folder" "$keep" ${6+"$6"}
mapfile -t newest < <(copies "$folder" | tail -n 2 | tac)
copy=$folder/${newest[0]}

room=''
clean_up() { [ -z "$room" ] || rm -rf -- "$room"; }
trap clean_up EXIT
trap 'clean_up; exit 1' HUP INT TERM
# Of another copy, since who opens a file may write beside it.
ended=0
make_room "$copy.test"
cp -- "$copy" "$room/a.db"
said=$(timeout --foreground "$(most "$file")" "$program" audit --file "$room/a.db" 2>&1) ||
  { echo "the audit of $copy ends with $?: $said" >&2; ended=1; }
rm -rf -- "$room"

make_room "$report"
timeout --foreground "$(most "$file")" "$here/../tools/report" "${newest[@]/#/$folder/}" > "$room/page" ||
  fail "there is no new page: the report of ${newest[0]} isn't made"
mv -- "$room/page" "$report"
exit "$ended"
