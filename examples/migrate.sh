#!/usr/bin/env bash
# Migrates a broker's file of format 1 to today's format, after a copy of it was made: there is no way back.
# Usage: migrate.sh PROGRAM FILE COPY     stop the service first, as by `systemctl stop broker`
# Needs sqlite3 (the Debian package sqlite3). Ends with 0 if the file is migrated. Else nothing is changed in the file,
# or if it ends with `open 5`, run `PROGRAM migrate --file FILE` again; the copy is there unless it couldn't be made.
set -eu
. "$(dirname -- "$0")/common.sh"
program=${1:?the path of the program broker}
file=${2:?the file of the broker}
copy=${3:?the file to keep a copy in}
[ -f "$file" ] || fail "$file isn't there"
file=$(real_path "$file")
lock "$file"
"$(dirname -- "$0")/backup.sh" "$program" "$file" "$copy"
"$program" migrate --file "$file"
echo "$file is migrated"
