#!/usr/bin/env bash
# Shows one deployment: makes a team, an environment, a pacticipant, a grant and a version, deploys it, and lists the
# environment.
# Usage: examples/replay.sh PATH_OF_THE_PROGRAM
set -eu
program=${1:?the path of the program broker}
office=office-token-0001
team=shop-team-token-1

# ask TOKEN METHOD PATH [BODY]: one request
ask() {
  local body=${4-}
  printf '%s %s HTTP/1.1\r\nhost: localhost\r\n' "$2" "$3"
  printf 'authorization: Bearer %s\r\ncontent-length: %s\r\n\r\n%s' "$1" "${#body}" "$body"
}

{
  ask $office PUT /teams/shop-team '{"token":"shop-team-token-1"}'
  ask $office PUT /environments/live '{"gated":true}'
  ask $office PUT /pacticipants/shop '{"team":"shop-team"}'
  ask $office PUT /grants/team/shop-team/environment/live
  ask $team PUT /pacticipants/shop/versions/1.0.0 '{"branch":"main"}'
  ask $team POST /environments/live/deployments '{"pacticipant":"shop","version":"1.0.0"}'
  ask $team GET /environments/live
} | "$program" replay --office-token $office
