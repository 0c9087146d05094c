"""The library: `Broker` has a method for each request that a broker takes, and gives its answer as a dataclass.

    from holzhebo.api import Broker, NotPermitted

    broker = Broker("https://broker.example.org", token)
    for it in broker.can_i_deploy("shop", "1.4.2", "live").faults:
        print(it.kind, it.provider)
    try:
        broker.deploy("shop", "1.4.2", "live")
    except NotPermitted as why:
        print(why.faults)

Each other answer is raised as `Refused`, with a sentence, the broker's JSON in `answer` and the status of HTTP in
`http_status`; a broker that doesn't answer as `Stop`, of which `Refused` is one. Nothing here prints but a note on
standard error while a broker that doesn't answer is asked again."""
from holzhebo.api.address import Way
from holzhebo.api.answers import Changed, Checked, Claimed, Deployed, Environment, Lack, Matrix, Permission
from holzhebo.api.answers import Published, Released, Row
from holzhebo.api.broker import Broker, NotPermitted, Refused
from holzhebo.faults import Stop

__all__ = ["Broker", "Changed", "Checked", "Claimed", "Deployed", "Environment", "Lack", "Matrix", "NotPermitted"]
__all__ += ["Permission", "Published", "Refused", "Released", "Row", "Stop", "Way"]
