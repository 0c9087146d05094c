#!/usr/bin/env bash
# Makes a second machine the broker, with the newest copy that it has of the first one's file.
# Usage: take-over.sh PROGRAM FOLDER FILE SERVICE OTHER [URL]
#   Run this on the second machine, as root, once the first one is off or its service is stopped and disabled.
#   FOLDER has the copies that keep-copies.sh made. FILE is where the service SERVICE of this machine has its file.
#   OTHER is the address at which the first machine is asked, as https://first.example.org; URL is this broker's, and
#   http://127.0.0.1:9292 if it isn't given.
# Needs what restore.sh needs. It refuses if anything takes connections at OTHER, or if OTHER can't be asked, as by a
# name that isn't known here. That OTHER is silent doesn't show that the first machine is off, since the way to it may
# be cut: before the clients are sent here, see to it that they reach it no more. Ends with 0 if this machine serves;
# then the last line says since when changes have to be sent again.
set -euo pipefail
. "$(dirname -- "$0")/common.sh"
program=${1:?the path of the program broker}
folder=${2:?the folder of the copies}
file=${3:?the file of the broker}
service=${4:?the service of this machine}
other=${5:?the address of the first machine}
url=${6-http://127.0.0.1:9292}
refuse() { fail "nothing is changed: $*"; }
[ -d "$folder" ] || refuse "$folder isn't a folder"
folder=$(real_path "$folder")
[[ $other =~ ^(https?)://(\[([0-9a-fA-F:.]+)\]|([A-Za-z0-9._-]+))(:([0-9]{1,5}))?/?$ ]] ||
  refuse "$other isn't an address as https://first.example.org"
host=${BASH_REMATCH[3]}${BASH_REMATCH[4]} port=${BASH_REMATCH[6]}
[ -n "$port" ] || case ${BASH_REMATCH[1]} in http) port=80 ;; *) port=443 ;; esac
[ "$port" -gt 0 ] && [ "$port" -lt 65536 ] || refuse "$other has no port"
getent ahosts "$host" > /dev/null || refuse "the name $host isn't known here"
# Whoever takes a connection isn't off, whether it answers or not.
! timeout 10 bash -c ': < "/dev/tcp/$0/$1"' "$host" "$port" 2> /dev/null ||
  refuse "$other takes connections, so the first machine may serve"
copy=$(copies "$folder" | tail -n 1)
[ -n "$copy" ] || refuse "there is no copy in $folder"
made=$(date_of "$copy")
[[ ! $made > $(today) ]] || refuse "$copy has a date to come: set the clock, or rename it if it isn't the newest"
"$(dirname -- "$0")/restore.sh" "$program" "$folder/$copy" "$file" "$service" "$url" ||
  fail "if $copy can't be served, as one that was being fetched, move it away: then the one before it is the newest"
systemctl is-enabled --quiet "$service" ||
  echo "$service isn't started with this machine: systemctl enable $service"
echo "send again what was changed since $(sed -E 's/(..)(..)Z$/:\1:\2+00:00/' <<< "$made")"
