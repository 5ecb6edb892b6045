"""Files of older versions for tests/differential/fuzz: the texts that cases keep, and the requests that each stands for."""
import json

from harness import wire_case

KEPT = {
    name: wire_case.ROOT / f"tests/wire/database/of_version_{name}.case"
    for name in ("1_ten_devices", "1_forty_requests", "2_ten_devices", "2_forty_requests")
}
DEVICE = "/DEFAULT/controller/v1"


def ask(line, body=b"", device=None):
    field = f" | Authorization: TargetToken tok-{device}" if device else ""
    return wire_case.request_bytes(line + field, body)


def say(action, device, execution, finished, *details, call="deploymentBase"):
    status = {"execution": execution, "result": {"finished": finished}, "details": details}
    return ask(
        f"POST {DEVICE}/{device}/{call}/{action}/feedback",
        json.dumps({"status": status}).encode(),
        device,
    )


def devices(last):
    rows = [
        {
            "controllerId": f"dev-{it:02}",
            "name": f"dev-{it:02}",
            "securityToken": f"tok-dev-{it:02}",
        }
        for it in range(1, last + 1)
    ]
    return ask("POST /rest/v1/targets", json.dumps(rows).encode())


def condition(percent):
    return {"condition": "THRESHOLD", "expression": str(percent)}


def rollout(name, query, success, error, **groups):
    found = {
        "name": name,
        "distributionSetId": 1,
        "targetFilterQuery": query,
        "successCondition": condition(success),
        "errorCondition": condition(error),
    }
    return ask("POST /rest/v1/rollouts", json.dumps(found | groups).encode())


def firmware(*files):
    return [
        ask("POST /rest/v1/softwaremodules", b'[{"name":"app","type":"os","version":"1.0"}]'),
        *(
            ask(f"POST /rest/v1/softwaremodules/1/artifacts?filename={name}", body)
            for name, body in files
        ),
        ask(
            "POST /rest/v1/distributionsets", b'[{"name":"r1","version":"1","modules":[{"id":1}]}]'
        ),
    ]


def cancel(action, device, query=""):
    return ask(f"DELETE /rest/v1/targets/{device}/actions/{action}{query}")


def ten_devices_of_1():
    return [
        *firmware(("abc.bin", b"abc")),
        devices(10),
        rollout("spring", "name==*", 50, 100, amountGroups=3),
        ask("POST /rest/v1/rollouts/1/start"),
        say(1, "dev-01", "closed", "success"),
        say(2, "dev-02", "closed", "success"),
    ]


def ten_devices_of_2():
    """Ten devices in groups of percentages, of which one is done and one is under way."""
    groups = [
        {"targetPercentage": 10},
        {
            "targetPercentage": 50,
            "successCondition": condition(40),
            "errorCondition": condition(34),
        },
        {"targetPercentage": 100},
    ]
    return [
        *firmware(("abc.bin", b"abc")),
        devices(10),
        ask("POST /rest/v1/targets/dev-03/tags/lab"),
        ask(f"PUT {DEVICE}/dev-03/configData", b'{"data":{"os":"linux"}}', "dev-03"),
        rollout("spring", "name==*", 100, 100, groups=groups),
        ask("POST /rest/v1/rollouts/1/start"),
        say(1, "dev-01", "proceeding", "none", "half of it", "10 of 20"),
        say(1, "dev-01", "closed", "success"),
        say(2, "dev-02", "closed", "success"),
        say(3, "dev-03", "closed", "failure"),
        cancel(4, "dev-04"),
        say(4, "dev-04", "proceeding", "none", call="cancelAction"),
        say(4, "dev-04", "rejected", "none", call="cancelAction"),
        cancel(4, "dev-04"),
        say(5, "dev-05", "resumed", "none", "again"),
    ]


def forty_requests():
    """Every command over five devices, as version 1 and version 2 left it."""
    rows = (
        "controllerid,name,token,tags",
        "dev-01,Lab one,tok-dev-01,lab",
        "dev-02,Lab two,tok-dev-02,",
        "dev-03,Yard,tok-dev-03,lab outdoor",
    )
    file = "".join(f"{it}\n" for it in rows).encode()
    return [
        *firmware(("abc.bin", b"abc"), ("empty.bin", b"")),
        devices(5),
        ask("POST /rest/v1/targets/dev-01/tags/lab"),
        ask("DELETE /rest/v1/targets/dev-01/tags/lab"),
        ask(f"PUT {DEVICE}/dev-01/configData", b'{"data":{"k":"v"}}', "dev-01"),
        ask("POST /desk/v1/import", file),
        rollout("one", "name==*", 50, 100, amountGroups=2),
        ask("POST /rest/v1/rollouts/1/start"),
        say(1, "dev-01", "proceeding", "none"),
        ask("POST /rest/v1/rollouts/1/pause"),
        say(1, "dev-01", "closed", "success"),
        ask("POST /rest/v1/rollouts/1/resume"),
        cancel(2, "dev-02"),
        say(2, "dev-02", "proceeding", "none", call="cancelAction"),
        say(2, "dev-02", "rejected", "none", call="cancelAction"),
        cancel(2, "dev-02"),
        cancel(2, "dev-02", "?force=true"),
        rollout("two", "controllerid==dev-01,controllerid==dev-02", 100, 100, amountGroups=2),
        ask("POST /rest/v1/rollouts/2/start"),
        say(6, "dev-01", "closed", "failure"),
        ask("POST /rest/v1/rollouts/2/resume"),
        ask("POST /rest/v1/rollouts/2/triggerNextGroup"),
        say(7, "dev-02", "closed", "success"),
    ]


REQUESTS = {
    "1_ten_devices": ten_devices_of_1,
    "1_forty_requests": forty_requests,
    "2_ten_devices": ten_devices_of_2,
    "2_forty_requests": lambda: [
        *forty_requests(),
        *[say(5, "dev-05", "proceeding", "none")] * 100,
    ],
}


def texts(name):
    """The statements that make a file."""
    return wire_case.read(KEPT[name]).processes[0].before
