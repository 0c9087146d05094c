"""team, environment and replace-token: what the office makes."""
import os
from typing import List, Tuple

from holzhebo.api import Broker, Changed, Refused
from holzhebo.api.sentences import member
from holzhebo.api.token import new_token
from holzhebo.cli.context import broker_of, tell_json
from holzhebo.cli.parser import Arguments
from holzhebo.faults import DONE, USAGE, Stop
from holzhebo.proxy import tokens
from holzhebo.text import note, shown, tell, tell_table

RELOAD = "reload the proxy, so that its log has the team's name"


def outcome_of(said: Changed) -> str:
    return "new" if said.is_new else "known"


def tell_made(args: Arguments, rows: List[List[str]]) -> None:
    if args.json:
        tell_json([{"outcome": outcome, "what": what} for outcome, what in rows])
    else:
        tell_table([[shown(it) for it in row] for row in rows])


def team(args: Arguments) -> int:
    """Makes what is named, and says what was made also if something after it is refused."""
    if args.into and not args.new_token_file:
        raise Stop("--into needs the team's token: give --new-token-file", status=USAGE)
    if args.into:
        tokens.is_name_for_proxy(args.team)
    broker, rows = broker_of(args), []  # type: Broker, List[List[str]]
    try:
        if args.new_token_file:
            token, outcome = make_team(broker, args)
            rows.append([outcome, f"team {args.team}"])
            if args.into:
                tokens.put_team(args.into, token, args.team, args.caddy)
        for it in args.owns:
            rows.append([outcome_of(broker.make_pacticipant(it, args.team)), f"pacticipant {it}"])
        for it in args.grant:
            rows.append([outcome_of(broker.grant(args.team, it)), f"grant for {it}"])
        for it in args.no_grant:
            broker.take_grant(args.team, it)
            rows.append(["gone", f"grant for {it}"])
    finally:
        if rows or not args.json:
            tell_made(args, rows)
    if not rows:
        raise Stop("what: give --new-token-file, --owns, --grant or --no-grant", status=USAGE)
    if args.into:
        note(RELOAD)
    return DONE


def make_team(broker: Broker, args: Arguments) -> Tuple[str, str]:
    """Makes the team with the token of a file. If the broker refuses it, a file that was made for it is removed."""
    token, is_new = new_token(args.new_token_file)
    try:
        return token, outcome_of(broker.make_team(args.team, token))
    except Refused as why:
        if is_new and member(why.answer, "answer") in ("denied", "taken", "bad form"):
            os.remove(args.new_token_file)
        raise


def environment(args: Arguments) -> int:
    if args.strict and args.not_gated:
        raise Stop("an environment that isn't gated can't be strict", status=USAGE)
    said = broker_of(args).make_environment(args.environment, not args.not_gated, args.strict)
    tell_made(args, [[outcome_of(said), f"environment {args.environment}"]])
    return DONE


def replace_token(args: Arguments) -> int:
    tokens.replace_token(args.file, args.new_token_file, args.into, args.caddy)
    said = f"{shown(args.new_token_file)} has the new token. Reload the proxy; then the old one is answered 401."
    tell('{"answer":"done"}' if args.json else said)
    return DONE
