#!/usr/bin/env bash
# Makes a backup into a folder, and keeps only the newest of those that are there.
# Usage: keep-copies.sh PROGRAM FILE FOLDER KEEP [BROKER]
#   FOLDER gets broker-DATE.db, with the date in UTC to the second. KEEP is how many stay, 1 or more. PROGRAM, FILE and
#   BROKER are those of backup.sh, which makes the copy and tests it.
# Older copies are removed only after a new one is there, so a backup that fails removes nothing. The new one stays in
# any case, and so do files of other names. Ends with 1 if there is no new copy, as if backup.sh takes over ten minutes,
# and ten seconds for each MB of FILE; or if there is one, but another has a later date: then this machine's clock was or
# is wrong, and which copy is the newest can't be seen from the names.
set -euo pipefail
. "$(dirname -- "$0")/common.sh"
program=${1:?the path of the program broker}
file=${2:?the file of the broker}
folder=${3:?the folder of the copies}
keep=${4:?how many copies to keep}
[[ $keep =~ ^[1-9][0-9]*$ ]] || fail "$keep isn't a number of copies"
[ -d "$folder" ] || fail "$folder isn't a folder"
[ -f "$file" ] || fail "$file isn't there"
file=$(real_path "$file")
folder=$(real_path "$folder")
lock "$file"
for left in "$folder"/broker-*Z.db*.part.??????; do remove_left "$left"; done
while new=broker-$(today).db && [ -e "$folder/$new" ]; do sleep 0.1; done
limit=$(most "$file")
timeout --foreground -k 60 "$limit" "$(dirname -- "$0")/backup.sh" "$program" "$file" "$folder/$new" ${5+"$5"} ||
  fail "there is no new copy: backup.sh ended with $? (124: it was ended after $limit seconds)"

found=$(copies "$folder")
later=() earlier=()
while IFS= read -r copy; do
  if [[ $(date_of "$copy") > $(date_of "$new") ]]; then later+=("$copy"); else earlier+=("$copy"); fi
done <<< "$found"
# The new one is the last of those that aren't later.
over=$((${#earlier[@]} - keep))
for copy in "${earlier[@]:0:$((over > 0 ? over : 0))}"; do rm -f -- "$folder/$copy" "$folder/$copy-wal"; done
[ ${#later[@]} = 0 ] ||
  fail "$folder/$new is made, but $folder/${later[-1]} is of a later date: set the clock, or rename that copy"
