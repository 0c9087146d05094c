"""status and matrix."""
from typing import Dict, List, Optional

from holzhebo.api import Broker, Environment
from holzhebo.cli.context import broker_of, listing, tell_json, tell_rows
from holzhebo.cli.gate import tell_answer
from holzhebo.cli.parser import Arguments, named
from holzhebo.faults import DONE, USAGE, Stop
from holzhebo.text import shown, tell
from holzhebo.verify.contracts import Search, standing

Row = Dict[str, str]


def status(args: Arguments) -> int:
    if (args.provider or args.branch) and not (args.provider and args.environment):
        raise Stop("whose contracts: give an environment and --provider", status=USAGE)
    if args.service is not None and not args.environment:
        raise Stop("where: give an environment", status=USAGE)
    broker = broker_of(args)
    if args.provider:
        return status_of_contracts(broker, args)
    if not args.environment:
        broker.knows_token()
        tell('{"answer":"known"}' if args.json else "the broker answers, and knows the token")
    for environment in args.environment:
        said = broker.environment(environment)
        if args.json:
            tell_answer(broker)
        elif text := text_of(args, said):
            tell(text)
    return DONE


def rows_of(said: Environment, service: Optional[str]) -> List[Row]:
    rows = [
        {"state": "deployed", "pacticipant": it.pacticipant, "version": it.version, "instance": it.instance}
        for it in said.deployed
    ]
    rows += [
        {"state": "released", "pacticipant": it.pacticipant, "version": it.version, "instance": ""}
        for it in said.released
    ]
    return [it for it in rows if service is None or it["pacticipant"] == service]


def text_of(args: Arguments, said: Environment) -> str:
    rows = rows_of(said, args.service)
    if args.format is not None:
        return listing(args, [{**it, "environment": said.environment} for it in rows])
    marks = ["gated" if said.gated else "not gated"] + ["strict"] * said.strict
    head = f"{shown(said.environment)} ({', '.join(marks)})"
    return f"{head}\n{listing(args, rows, '  ', ['nothing'])}"


def status_of_contracts(broker: Broker, args: Arguments) -> int:
    """Which consumers in the environments have a contract with a provider, and whether their branch has another."""
    if not broker.knows_pacticipant(args.provider):
        raise Stop(f"the broker doesn't know the pacticipant {shown(args.provider)}")
    rows = []
    for environment in args.environment:
        for consumer, version in standing(broker, environment):
            search = Search(broker, args.provider)
            if consumer == args.provider or not search.add_version(consumer, version, environment):
                if search.failed:
                    raise Stop(f"{search.failed[0][0]}: {search.failed[0][1]}")
                continue
            row = {"environment": environment, "consumer": consumer, "version": version, "onBranch": "not asked"}
            if args.branch is not None:
                has_one = search.add_branch(consumer, args.branch)
                row["onBranch"] = ("the same" if len(search.found) == 1 else "another") if has_one else "none"
            rows.append(row)
    if args.json:
        tell_json(rows)
    elif args.format is not None:
        tell_rows(args, rows)
    else:
        ends = [f"{it['onBranch']} contract on {args.branch}" if args.branch else "" for it in rows]
        tell_rows(args, [{**it, "onBranch": end} for it, end in zip(rows, ends)])
    return DONE


def matrix(args: Arguments) -> int:
    pacticipant, version = named(args, "pacticipant", "version")
    broker = broker_of(args)
    said = broker.matrix(pacticipant, version)
    if args.json:
        tell_answer(broker)
        return DONE
    if args.format is not None:
        keys = ("consumer", "consumerVersion", "provider")
        found = [(it.consumer, it.consumer_version, it.provider) for it in said.rows]
        more = [
            {"providerVersion": it.provider_version or "", "outcome": outcome_of(it.success),
             "evidence": it.evidence or "",
             "result": "" if it.result is None else str(it.result)}
            for it in said.rows
        ]  # fmt: skip
        tell_rows(args, [{**dict(zip(keys, one)), **rest} for one, rest in zip(found, more)])
        return DONE
    lines = []
    for it in said.rows:
        one, provider = f"{shown(it.consumer)} {shown(it.consumer_version)}", shown(it.provider)
        if it.result is None:
            lines.append(f"{one}: no version of {provider} has a result for its contract")
        else:
            does = f"{provider} {shown(it.provider_version)} {'meets' if it.success else 'fails'}"
            lines.append(f"{one}: {does} its contract ({shown(it.evidence)}, result {it.result})")
    tell("\n".join(lines) or f"{shown(pacticipant)} {shown(version)} has no contract and no result")
    return DONE


def outcome_of(success: Optional[bool]) -> str:
    return "none" if success is None else "pass" if success else "fail"
