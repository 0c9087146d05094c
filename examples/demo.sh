#!/usr/bin/env bash
# A demo to look at: four services of two teams in three environments, each kind of fault once. The broker runs on.
# ./run makes such a broker, fills it with this and serves the page. By hand:
# Usage: examples/demo.sh URL     over a new broker whose office has the token office-token-0001, as
#   file=$(mktemp -d)/broker.db
#   crates/broker/out/broker init --file "$file" --office-token office-token-0001
#   crates/broker/out/broker serve --file "$file" --listen 127.0.0.1:9292 --connections 1000000 &
# Needs curl. Some 60 requests, a second or two. The first waits until the broker listens.
#
# web calls shop; shop calls stock and, from 1.4 on, pay. Red has web and shop, blue has stock and pay.
# dev is open, staging is gated, live is gated and strict: it takes results that the broker checked, and no claims.
set -eu
url=${1:?the address of a new broker, as http://127.0.0.1:9292}
command -v curl > /dev/null || { echo "curl isn't installed" >&2; exit 1; }
umask 077
room=$(mktemp -d)
trap 'rm -rf "$room"' EXIT
# A token is in a file, and never a word of a command line: others see those.
for caller in office-token-0001 red-team-token-0001 blue-team-token-0001; do
  printf 'authorization: Bearer %s\n' "$caller" > "$room/${caller%%-*}"
done
# Who calls it may have settings of curl, or a proxy.
alone=(-q --noproxy '*')
how=(-s --retry 50 --retry-connrefused --retry-delay 1)

# No token is sent to what doesn't answer as a broker does.
said=$(curl "${alone[@]}" "${how[@]}" -w '\n%{http_code}' "$url/") || true
if [[ $said != *'{"answer":"no route"}'$'\n404' ]]; then
  echo "no broker answers at $url" >&2
  exit 1
fi

# ask STATUS CALLER METHOD PATH [BODY]: one request, which has to be answered with the status; the answer is in $answer
ask() {
  local status=$1 caller=$2 method=$3 path=$4
  answer=$(printf %s "${5-}" | curl "${alone[@]}" "${how[@]}" -w '\n%{http_code}' -X "$method" -H @"$room/$caller" \
    --data-binary @- "$url/$path") || { echo "there is no answer from $url" >&2; exit 1; }
  how=(-sS)
  if [ "${answer##*$'\n'}" != "$status" ]; then
    echo "$method /$path: $answer" >&2
    echo "the demo needs a new broker, whose office has the token office-token-0001" >&2
    exit 1
  fi
  answer=${answer%$'\n'*}
}

version() { ask 200 "$1" PUT "pacticipants/$2/versions/$3" '{"branch":"main"}'; }
deploy() { ask 200 "$1" POST "environments/$2/deployments" '{"pacticipant":"'"$3"'","version":"'"$4"'"'"${5-}}"; }

# publish CONSUMER VERSION PROVIDER WHAT: red publishes the contract that this is answered with a title
publish() {
  ask 200 red PUT "pacts/provider/$3/consumer/$1/version/$2" '{"consumer":{"name":"'"$1"'"},
    "provider":{"name":"'"$3"'"},
    "interactions":[{"description":"'"$4"'","request":{"method":"GET","path":"/'"${4// /-}"'"},
    "response":{"status":200,"headers":{"Content-Type":"application/json"},"body":{"title":"Emma"},
    "matchingRules":{"body":{"$.title":{"matchers":[{"match":"type"}]}}}}}]}'
}

# claim CALLER PROVIDER PROVIDER_VERSION CONSUMER VERSION SUCCESS: the provider's team says how its verification ended
claim() {
  ask 200 "$1" POST "pacts/provider/$2/consumer/$4/version/$5/results" \
    '{"providerApplicationVersion":"'"$3"'","success":'"$6"'}'
}

# replay CALLER PROVIDER PROVIDER_VERSION CONSUMER VERSION WHAT BODY: it sends what it replied, and the broker checks
replay() {
  ask 200 "$1" POST "pacts/provider/$2/consumer/$4/version/$5/replies" '{"providerApplicationVersion":"'"$3"'",
    "replies":[{"description":"'"$6"'","response":{"status":200,"headers":{"Content-Type":"application/json"},
    "body":'"$7"'}}]}'
}

echo "the office names teams, services and environments, and gives both teams a grant for each"
ask 200 office PUT teams/red '{"token":"red-team-token-0001"}'
ask 200 office PUT teams/blue '{"token":"blue-team-token-0001"}'
for service in web:red shop:red stock:blue pay:blue; do
  ask 200 office PUT "pacticipants/${service%:*}" '{"team":"'"${service#*:}"'"}'
done
ask 200 office PUT environments/dev '{"gated":false}'
ask 200 office PUT environments/staging '{"gated":true}'
ask 200 office PUT environments/live '{"gated":true,"strict":true}'
for environment in dev staging live; do
  for team in red blue; do ask 200 office PUT "grants/team/$team/environment/$environment"; done
done

echo "last month: stock 1.0 and 1.1, shop 1.3, web 4 and 5; each provider's replies are sent, and checked"
for it in 1.0 1.1; do version blue stock $it; done
version red shop 1.3
for it in 4 5; do version red web $it; done
publish shop 1.3 stock "a book"
publish web 4 shop "a page"
publish web 5 shop "a page with reviews"
for it in 1.0 1.1; do replay blue stock $it shop 1.3 "a book" '{"title":"Persuasion"}'; done
replay red shop 1.3 web 4 "a page" '{"title":"Books"}'
replay red shop 1.3 web 5 "a page with reviews" '{"title":"Books"}'
version blue pay 7
deploy blue staging stock 1.0
deploy blue staging pay 7
deploy red staging shop 1.3
deploy red staging web 5
deploy blue live stock 1.0
deploy red live shop 1.3
ask 200 red POST environments/live/releases '{"pacticipant":"web","version":"4"}'
deploy red live web 5
deploy blue live stock 1.1 ',"instance":"canary"'

echo "this week: shop 1.4, stock 2.0, web 6 and 7, which dev takes as they come"
version red shop 1.4
publish shop 1.4 stock "a book with its price"
publish shop 1.4 pay "a charge"
version blue stock 2.0
for it in 6 7; do version red web $it; done
publish web 6 shop "a page with reviews"
publish web 7 shop "a page with a wish list"
claim blue pay 7 shop 1.4 true
claim blue stock 1.0 shop 1.4 false
replay blue stock 1.1 shop 1.4 "a book with its price" '{"title":"Persuasion"}'
claim blue stock 2.0 shop 1.4 true
claim red shop 1.4 web 5 true
deploy blue dev pay 7
deploy blue dev stock 2.0
deploy red dev shop 1.4
deploy red dev web 7

echo "last night: the canary, stock 1.1, replied without a title, so it fails the contract of shop 1.3"
replay blue stock 1.1 shop 1.3 "a book" '{}'

echo "now: shop 1.4 asks to go to live, and is refused for four reasons:"
ask 409 red POST environments/live/deployments '{"pacticipant":"shop","version":"1.4"}'
echo "$answer"
cat << END

Look at it with the page, by the token desk-token-000001: ./run serves it, and docs/DESK.md says how else it is served.
Or with curl, and \`authorization: Bearer office-token-0001\`. Of the page:
  #/board                    what is where; "today" beside it asks the gate again: the canary and shop 1.3 are refused
  #/ask/shop/1.4/live        refused: absent, failed, missing and claimed, once each, and who has to act
  #/ask/web/6/live           may go: its contract is that of web 5, so nothing had to be verified again
  #/ask/web/7/dev            may go with a fault, since dev is open
  #/matrix/shop/1.4          its contracts with their results, claimed and checked
  #/environment/live         deployed, with a canary, and released
  $url/can-i-deploy?pacticipant=shop&version=1.4&environment=live
Red's token is red-team-token-0001, blue's is blue-team-token-0001. To go on: deploy pay 7 to live, and ask again.
END
