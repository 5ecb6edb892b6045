"""The calls of both interfaces: paths compared segment by segment, where `{..}` is any one that isn't empty."""
from functools import lru_cache

from .refusals import Refused

PAGE = ("offset", "limit")
REST, DESK, DEVICE = "/rest/v1", "/desk/v1", "/DEFAULT/controller/v1"
MODULE, TARGET = f"{REST}/softwaremodules/{{module}}", f"{REST}/targets/{{target}}"
ROLLOUT = f"{REST}/rollouts/{{rollout}}"
ACTION, GROUP, DEVICES = (
    f"{TARGET}/actions/{{action}}",
    f"{ROLLOUT}/deploygroups/{{group}}",
    f"{DEVICE}/{{device}}",
)

# each call by its method and path, and the keys of its query
CALLS = {
    f"POST {REST}/targets": (),
    f"GET {REST}/targets": (*PAGE, "q"),
    f"GET {TARGET}": (),
    f"POST {TARGET}/tags/{{tag}}": (),
    f"DELETE {TARGET}/tags/{{tag}}": (),
    f"GET {TARGET}/actions": PAGE,
    f"GET {ACTION}": (),
    f"DELETE {ACTION}": ("force",),
    f"GET {ACTION}/status": PAGE,
    f"POST {REST}/softwaremodules": (),
    f"GET {REST}/softwaremodules": PAGE,
    f"GET {MODULE}": (),
    f"POST {MODULE}/artifacts": ("filename", "sha256"),
    f"GET {MODULE}/artifacts": PAGE,
    f"GET {MODULE}/artifacts/{{artifact}}": (),
    f"GET {MODULE}/artifacts/{{artifact}}/download": (),
    f"POST {REST}/distributionsets": (),
    f"GET {REST}/distributionsets": PAGE,
    f"GET {REST}/distributionsets/{{set}}": (),
    f"POST {REST}/rollouts": (),
    f"GET {REST}/rollouts": PAGE,
    f"GET {ROLLOUT}": (),
    f"POST {ROLLOUT}/start": (),
    f"POST {ROLLOUT}/pause": (),
    f"POST {ROLLOUT}/resume": (),
    f"POST {ROLLOUT}/approve": (),
    f"POST {ROLLOUT}/deny": (),
    f"POST {ROLLOUT}/triggerNextGroup": (),
    f"GET {ROLLOUT}/deploygroups": PAGE,
    f"GET {GROUP}": (),
    f"GET {GROUP}/targets": PAGE,
    f"POST {DESK}/import": (),
    f"GET {DESK}/rollouts/{{rollout}}/report": (),
    f"GET {DESK}/rollouts/{{rollout}}/actions": (),
    f"GET {DEVICES}": (),
    f"GET {DEVICES}/deploymentBase/{{action}}": (),
    f"POST {DEVICES}/deploymentBase/{{action}}/feedback": (),
    f"GET {DEVICES}/cancelAction/{{action}}": (),
    f"POST {DEVICES}/cancelAction/{{action}}/feedback": (),
    f"PUT {DEVICES}/configData": (),
    f"GET {DEVICES}/softwaremodules/{{module}}/artifacts/{{filename}}": (),
}
SPLIT = [(call, *call.partition(" ")[::2]) for call in CALLS]


def is_device(call):
    return DEVICE in call


def is_served(call, interface):
    return interface == "both" or is_device(call) == (interface == "ddi")


def parameters(route, path):
    """What stands in the places of a route's parameters, or None where a path isn't of this route."""
    route, path = route.split("/"), path.split("/")
    if len(route) != len(path) or not all(path[1:]):
        return None
    pairs = list(zip(route, path))
    if any(it != given for it, given in pairs if not it.startswith("{")):
        return None
    return {it[1:-1]: given for it, given in pairs if it.startswith("{")}


@lru_cache(10_000)
def of_path(path, interface):
    """The calls that a path may make, each with what stands in the places of its parameters."""
    return [
        (call, method, given)
        for call, method, route in SPLIT
        if is_served(call, interface) and (given := parameters(route, path)) is not None
    ]


def find(message, interface):
    """The call that a message makes, and what stands in the places of its parameters."""
    found = of_path(message.path, interface)
    if not found:
        raise Refused(3, f"there is no route {message.path[:100]}")
    for call, method, given in found:
        if method == message.method:
            return call, given
    raise Refused(
        4, f"{message.path[:100]} takes {' and '.join(it[1] for it in found)}, not {message.method}"
    )
