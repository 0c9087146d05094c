# shellcheck shell=bash
# What the scripts of examples/ share: they read it, and it does nothing by itself.

fail() { echo "$*" >&2; exit 1; }
need() {
  local tool
  for tool; do command -v "$tool" > /dev/null || fail "$tool isn't installed"; done
}

# The whole path of a file or folder, which may not be there yet, without links: a log is beside its file, and not
# beside a link to that. So a name that begins with - is no option of anything either.
real_path() { readlink -f -- "$1" || fail "the folder of $1 isn't there"; }

# sqlite3, ended by its first fault, and without ~/.sqliterc of who calls it, which may change what it prints.
sql() { sqlite3 -batch -init /dev/null -bail "$@"; }

# lock FILE: waits until no other of these scripts works on FILE, for as long as one may take. The lock is that of the
# folder of FILE, by descriptor 9. A script that calls another one hands it on, and the other one has it then.
lock() {
  local folder
  folder=$(dirname -- "$1")
  [ "/proc/$$/fd/9" -ef "$folder" ] || exec 9< "$folder"
  flock -w "$(most "$1")" 9 || fail "nothing is done: for $(most "$1") seconds another script has worked on $1"
}

# make_room NAME: sets room to a new folder beside NAME, for what is unfinished. Nobody removes it as long as this
# script goes on, since descriptor 8 is its lock; those of scripts that were killed are removed here.
make_room() {
  local left
  for left in "$1".part.??????; do remove_left "$left"; done
  room=$(mktemp -d -- "$1.part.XXXXXX")
  exec 8< "$room"
  flock -n 8 && [ -d "$room" ] || fail "$room is used by another script"
}
# remove_left ROOM: if the script that made it is gone.
remove_left() {
  [ -d "$1" ] || return 0
  (exec 8< "$1" && flock -n 8 && rm -rf -- "$1") || true
}

# as_owner FOLDER WORDS..: runs the words as the owner of FOLDER, if this is root. Whoever may change a folder can put a
# link to another file there at any moment, so nothing is written there with more rights than he has himself.
as_owner() {
  local user group
  read -r user group < <(stat -c '%u %g' -- "$1")
  shift
  if [ "$(id -u)" = 0 ] && [ "$user" != 0 ]; then
    setpriv --reuid "$user" --regid "$group" --clear-groups --inh-caps=-all -- "$@"
  else
    "$@"
  fi
}

# The lock that a broker, or sqlite3, has on an open file: by the number of the file system, as the kernel's list of
# mounts has it too, and of the file there. Files of two file systems may have one number.
is_open() {
  local disk=:
  [ -e "$1" ] || return 1
  disk=$(findmnt -n -o MAJ:MIN -T "$1" | awk -F : '{ printf " %02x:%02x:", $1, $2; exit }') || disk=:
  grep -q "${disk:-:}$(stat -c %i -- "$1") 10737418" /proc/locks
}

# patience FILE: how many seconds an opening of it may take on a machine with much other work: it takes longer as the
# file grows, a second of a processor for each 8 to 50 MB. By this these scripts, and so the units, wait for an opening,
# for a copy, and for one another.
patience() {
  local size
  size=$(stat -L -c %s -- "$1" 2> /dev/null) || size=0
  echo $((60 + size / 1000000))
}
# most FILE: how many seconds a script that works on it may take, as it opens and compares copies of it several times.
most() { echo $((10 * $(patience "$1"))); }

# The copies of keep-copies.sh: broker-DATE.db, with the date in UTC. Earlier ones have colons in it.
today() { date -u +%Y-%m-%dT%H%M%SZ; }
# copies FOLDER: their names, the oldest date first.
copies() {
  find "$1/" -maxdepth 1 -type f -printf '%f\n' |
    sed -nE 's/^(broker-[0-9]{4}-[0-9]{2}-[0-9]{2}T[0-9]{2}):?([0-9]{2}):?([0-9]{2}Z\.db)$/\1\2\3 &/p' |
    LC_ALL=C sort | cut -d ' ' -f 2
}
# date_of COPY: its date, without colons.
date_of() { basename -- "$1" | sed -E 's/^broker-(.*)\.db$/\1/; s/://g'; }
