"""From a message to what it asks, and from what is answered to the bytes of the reply."""
import hashlib
import json
import re

from . import commands, files, json_reader, query_reader, routes, texts
from .commands import Credential, Group, Page, TargetRow
from .refusals import must
from .wire import reply_bytes

CREDENTIAL = re.compile(rb"TargetToken (%s)" % texts.TOKEN.pattern.encode())
PERCENT = re.compile(r"[1-9][0-9]?|100")


def sha256(text):
    return hashlib.sha256(text).hexdigest()


# --- members of bodies: one that breaks its rule is a bad request


def member(value, name, kind):
    must(name in value, 1, f"there is no {name!r}")
    must(type(value[name]) is kind, 1, f"{name!r} is of another kind")
    return value[name]


def text(value, name, rule=texts.is_text):
    found = member(value, name, str)
    must(rule(found), 1, f"{name!r} breaks its rule: {found[:40]!r}")
    return found


def number(value, name, most=texts.LARGEST):
    found = member(value, name, int)
    must(1 <= found <= most, 1, f"{name!r} is {found}")
    return found


def items(value, least, most, kind, what):
    """A list of so many, each of one kind."""
    must(
        type(value) is list and least <= len(value) <= most,
        1,
        f"{what} aren't a list of {least} to {most}",
    )
    must(all(type(it) is kind for it in value), 1, f"{what} are of another kind")
    return value


def one_object(value):
    return items(value, 1, 1, dict, "the body's objects")[0]


def different(values, what):
    must(len(set(values)) == len(values), 1, f"{what} are repeated")
    return tuple(values)


def add_module(value):
    it = one_object(value)
    return commands.AddModule(text(it, "name"), text(it, "type"), text(it, "version"))


def add_set(value):
    it = one_object(value)
    numbers = [
        number(each, "id")
        for each in items(it.get("modules"), 1, texts.MODULES_OF_SET, dict, "modules")
    ]
    return commands.AddSet(text(it, "name"), text(it, "version"), different(numbers, "modules"))


def target_row(it):
    tags = items(it.get("tags", []), 0, texts.TAGS, str, "tags")
    must(all(map(texts.is_word, tags)), 1, "a tag breaks its rule")
    name, token = text(it, "controllerId", texts.is_word), text(it, "securityToken", texts.is_token)
    return TargetRow(name, text(it, "name"), sha256(token.encode()), different(tags, "tags"))


def put_targets(value):
    rows = tuple(map(target_row, items(value, 1, texts.TARGETS_OF_REQUEST, dict, "targets")))
    different([it.id for it in rows], "targets")
    return commands.PutTargets(rows)


def threshold(value, name, default=None):
    """The percentage of a condition."""
    if name not in value and default is not None:
        return default
    it = member(value, name, dict)
    must(text(it, "condition") == "THRESHOLD", 1, f"{name!r} isn't a THRESHOLD")
    return int(text(it, "expression", PERCENT.fullmatch))


def group(it, success, error):
    """A group by its percentage, with its own thresholds or those of the rollout."""
    own = threshold(it, "successCondition", success), threshold(it, "errorCondition", error)
    return Group(number(it, "targetPercentage", 100), *own)


def plan(value, success, error):
    """The groups of a rollout: a number of them, or one object each."""
    must(
        ("amountGroups" in value) != ("groups" in value),
        1,
        "there is either amountGroups or groups",
    )
    if "amountGroups" in value:
        return (Group(None, success, error),) * number(value, "amountGroups", texts.GROUPS)
    found = tuple(
        group(it, success, error) for it in items(value["groups"], 1, texts.GROUPS, dict, "groups")
    )
    must(found[-1].percentage == 100, 1, f"the last group takes {found[-1].percentage} percent")
    return found


def create_rollout(value):
    must(type(value) is dict, 1, "the body is no object")
    for name, action in (("successAction", "NEXTGROUP"), ("errorAction", "PAUSE")):
        must(
            name not in value or text(member(value, name, dict), "action") == action,
            1,
            f"{name!r} isn't {action}",
        )
    groups = plan(value, threshold(value, "successCondition"), threshold(value, "errorCondition"))
    query = text(value, "targetFilterQuery", lambda it: True)
    return commands.CreateRollout(
        text(value, "name"), number(value, "distributionSetId"), query, groups
    )


def feedback(body, kind, pairs, credential, action):
    value = json_reader.read(body)
    must(type(value) is dict, 1, "the body is no object")
    status = member(value, "status", dict)
    said = text(status, "execution"), text(member(status, "result", dict), "finished")
    must(said in pairs, 1, f"no feedback is {'/'.join(said)}")
    details = items(status.get("details", []), 0, texts.DETAILS, str, "details")
    must(all(map(texts.is_detail, details)), 1, "a line of details breaks its rule")
    by_number = number(value, "number", texts.LARGEST_OF_FEEDBACK) if "number" in value else None
    return kind(credential, action, said, tuple(details), by_number)


def put_attributes(value, credential):
    must(type(value) is dict, 1, "the body is no object")
    must("mode" not in value or text(value, "mode") == "merge", 1, "the mode isn't merge")
    data = member(value, "data", dict)
    must(len(data) <= texts.ATTRIBUTES, 1, f"there are {len(data)} attributes")
    for key in data:
        must(texts.is_word(key), 1, f"no key: {key[:40]!r}")
        text(data, key, texts.is_value)
    return commands.PutAttributes(credential, tuple(data.items()))


# --- paths and queries


def credential_of(message, given):
    """Who a device says it is: its one field Authorization, and an id by its rule."""
    must(
        len(message.credentials) == 1,
        2,
        f"there are {len(message.credentials)} fields Authorization",
    )
    shown = CREDENTIAL.fullmatch(message.credentials[0])
    must(shown, 2, "Authorization has another form")
    must(texts.is_word(given["device"]), 2, f"no id: {given['device'][:80]}")
    return Credential(given["device"], sha256(shown[1]))


RULES = {"target": texts.is_word, "tag": texts.is_word, "filename": texts.is_filename}


def read_parameters(given):
    """The numbers and words of a path."""
    found = {}
    for name, it in given.items():
        if name in RULES:
            must(RULES[name](it), 3, f"no {name}: {it[:80]}")
            found[name] = it
        elif name != "device":
            found[name] = texts.number(it)
            must(found[name], 3, f"no number: {it[:80]}")
    return found


def page(values):
    offset, limit = values.get("offset", "0"), values.get("limit", str(texts.USUAL_PAGE))
    must(offset == "0" or texts.number(offset), 1, f"no offset: {offset[:40]!r}")
    must(texts.number(limit, texts.PAGE), 1, f"no limit: {limit[:40]!r}")
    return Page(int(offset), int(limit))


def add_artifact(values, module, body):
    name, digest = values.get("filename"), values.get("sha256")
    must(name is not None and texts.is_filename(name), 1, f"no filename: {name!r}")
    must(digest is None or texts.DIGEST.fullmatch(digest), 1, f"no sha256: {digest!r}")
    return commands.AddArtifact(module, name, digest and digest.lower(), body)


def cancel(values, target, action):
    must(values.get("force", "false") in ("true", "false"), 1, f"force is {values.get('force')!r}")
    return commands.Cancel(target, action, values.get("force") == "true")


# what each call asks, of the values of its query, its body, its parameters and the device's credential
ASKED = dict(
    zip(
        routes.CALLS,
        (
            lambda q, body, _: put_targets(json_reader.read(body)),
            lambda q, body, _: commands.ShowTargets(q.get("q"), page(q)),
            lambda q, body, _, target: commands.ShowTarget(target),
            lambda q, body, _, target, tag: commands.Tag(target, tag),
            lambda q, body, _, target, tag: commands.Untag(target, tag),
            lambda q, body, _, target: commands.ShowTargetActions(target, page(q)),
            lambda q, body, _, target, action: commands.ShowAction(target, action),
            lambda q, body, _, target, action: cancel(q, target, action),
            lambda q, body, _, target, action: commands.ShowHistory(target, action, page(q)),
            lambda q, body, _: add_module(json_reader.read(body)),
            lambda q, body, _: commands.ShowModules(page(q)),
            lambda q, body, _, module: commands.ShowModule(module),
            lambda q, body, _, module: add_artifact(q, module, body),
            lambda q, body, _, module: commands.ShowArtifacts(module, page(q)),
            lambda q, body, _, module, artifact: commands.ShowArtifact(module, artifact),
            lambda q, body, _, module, artifact: commands.ShowContents(module, artifact),
            lambda q, body, _: add_set(json_reader.read(body)),
            lambda q, body, _: commands.ShowSets(page(q)),
            lambda q, body, _, set: commands.ShowSet(set),
            lambda q, body, _: create_rollout(json_reader.read(body)),
            lambda q, body, _: commands.ShowRollouts(page(q)),
            lambda q, body, _, rollout: commands.ShowRollout(rollout),
            lambda q, body, _, rollout: commands.Start(rollout),
            lambda q, body, _, rollout: commands.Pause(rollout),
            lambda q, body, _, rollout: commands.Resume(rollout),
            lambda q, body, _, rollout: commands.Approve(rollout),
            lambda q, body, _, rollout: commands.Deny(rollout),
            lambda q, body, _, rollout: commands.TriggerNext(rollout),
            lambda q, body, _, rollout: commands.ShowGroups(rollout, page(q)),
            lambda q, body, _, rollout, group: commands.ShowGroup(rollout, group),
            lambda q, body, _, rollout, group: commands.ShowGroupTargets(rollout, group, page(q)),
            lambda q, body, _: commands.PutTargets(files.read_targets(body)),
            lambda q, body, _, rollout: commands.ShowReport(rollout),
            lambda q, body, _, rollout: commands.ShowActionsTable(rollout),
            lambda q, body, who: commands.Poll(who),
            lambda q, body, who, action: commands.ShowDeployment(who, action),
            lambda q, body, who, action: feedback(
                body, commands.Feedback, commands.OF_DEPLOYMENT, who, action
            ),
            lambda q, body, who, action: commands.ShowCancel(who, action),
            lambda q, body, who, action: feedback(
                body, commands.CancelFeedback, commands.OF_CANCEL, who, action
            ),
            lambda q, body, who: put_attributes(json_reader.read(body), who),
            lambda q, body, who, module, filename: commands.Download(who, module, filename),
        ),
        strict=True,
    )
)


def read(message, call, given):
    """What a call asks. Its faults are told in this order: who asks, the path, the query, the body."""
    who = credential_of(message, given) if routes.is_device(call) else None
    parameters = read_parameters(given)
    values = query_reader.read(message.query, routes.CALLS[call])
    return ASKED[call](values, message.body, who, **parameters)


# --- replies

CREATING = {
    f"POST {routes.REST}/{it}"
    for it in ("targets", "softwaremodules", "distributionsets", "rollouts")
}
CREATING.add(f"POST {routes.MODULE}/artifacts")
KINDS = {"report": "text/plain; charset=utf-8", "actions": "text/csv; charset=utf-8"}


def answered(call, shown):
    """The bytes of a reply that shows something."""
    if isinstance(shown, bytes):
        kind = KINDS.get(call.rpartition("/")[2], "application/octet-stream")
        return reply_bytes(200, shown, kind)
    body = json.dumps(shown, separators=(",", ":"), sort_keys=True, ensure_ascii=False).encode()
    return reply_bytes(201 if call in CREATING else 200, body)
