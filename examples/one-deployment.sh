#!/usr/bin/env bash
# One deployment by curl: shop 1 has a contract with stock, and goes live once stock 1 is there with a result that
# passes.
# Usage: examples/one-deployment.sh [URL]     over a new broker whose office has the token office-token-0001, as
#   file=$(mktemp -d)/broker.db
#   crates/broker/out/broker init --file "$file" --office-token office-token-0001
#   crates/broker/out/broker serve --file "$file" --listen 127.0.0.1:9292 --connections 12 &
# Needs curl. Twelve requests, each on a connection of its own. The first waits until the broker listens.
set -eu
url=${1:-http://127.0.0.1:9292}
office=office-token-0001
team=shop-team-token-1
pact=pacts/provider/stock/consumer/shop/version/1
wait=(--retry 50 --retry-connrefused --retry-delay 1)

# ask TOKEN METHOD PATH [BODY]: one request and its answer. The token, and a body, which may have one too, go to curl by
# files, since the words of a command line are seen by others on the machine; and to no proxy.
ask() {
  echo "$2 /$3 ${4-}"
  curl -q -sS --noproxy '*' ${wait+"${wait[@]}"} -X "$2" -H @<(printf 'authorization: Bearer %s\n' "$1") \
    --data-binary @<(printf %s "${4-}") "$url/$3"
  echo
  unset wait
}

ask $office PUT teams/red "{\"token\":\"$team\"}"
ask $office PUT environments/live '{"gated":true}'
ask $office PUT pacticipants/shop '{"team":"red"}'
ask $office PUT pacticipants/stock '{"team":"red"}'
ask $office PUT grants/team/red/environment/live
ask $team PUT $pact '{"consumer":{"name":"shop"},"provider":{"name":"stock"},"interactions":[]}'
# Refused: no version of stock is in live.
ask $team POST environments/live/deployments '{"pacticipant":"shop","version":"1"}'
ask $team PUT pacticipants/stock/versions/1
ask $team POST environments/live/deployments '{"pacticipant":"stock","version":"1"}'
# Refused: stock 1 is there, and has no result for the contract.
ask $team POST environments/live/deployments '{"pacticipant":"shop","version":"1"}'
ask $team POST $pact/results '{"providerApplicationVersion":"1","success":true}'
# Permitted.
ask $team POST environments/live/deployments '{"pacticipant":"shop","version":"1"}'
