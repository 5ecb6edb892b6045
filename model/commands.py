"""The seventeen commands, and what may be asked. Each is a record that two interfaces share."""
from dataclasses import dataclass, make_dataclass

from .texts import USUAL_PAGE

record = dataclass(frozen=True, slots=True)

SUCCESS, FAILURE, GIVEN_UP = ("closed", "success"), ("closed", "failure"), ("canceled", "success")
REJECTED = ("rejected", "none")
NOTES = {("proceeding", "none"), ("scheduled", "none"), ("resumed", "none")}
# what a device may say of a deployment, and of a cancel
OF_DEPLOYMENT = {SUCCESS, FAILURE, REJECTED} | NOTES
OF_CANCEL = {SUCCESS, GIVEN_UP, REJECTED} | NOTES


@record
class Credential:
    """Who a device says it is, with the SHA-256 of the token that it showed."""

    id: str
    digest: str


@record
class TargetRow:
    id: str
    name: str
    digest: str
    tags: tuple


@record
class Group:
    """What a plan says of one group: its percentage, or None where all are to be alike, and its thresholds."""

    percentage: int
    success: int
    error: int


@record
class Page:
    offset: int = 0
    limit: int = USUAL_PAGE


class Command:
    """What changes the records where it is accepted."""

    __slots__ = ()


class Query:
    """What shows something of them."""

    __slots__ = ()


def command(name, *parts):
    return make_dataclass(name, parts, bases=(Command,), frozen=True, slots=True)


def query(name, *parts):
    return make_dataclass(name, parts, bases=(Query,), frozen=True, slots=True)


# the first of every list: a new desk, whose rollouts wait for approval or don't
Make = command("Make", "approval")
AddModule = command("AddModule", "name", "type", "version")
AddArtifact = command("AddArtifact", "module", "filename", "sha256", "contents")
AddSet = command("AddSet", "name", "version", "modules")
PutTargets = command("PutTargets", "rows")
Tag = command("Tag", "target", "tag")
Untag = command("Untag", "target", "tag")
PutAttributes = command("PutAttributes", "credential", "attributes")
CreateRollout = command("CreateRollout", "name", "set", "filter", "plan")
Approve = command("Approve", "rollout")
Deny = command("Deny", "rollout")
Start = command("Start", "rollout")
Pause = command("Pause", "rollout")
Resume = command("Resume", "rollout")
TriggerNext = command("TriggerNext", "rollout")
Cancel = command("Cancel", "target", "action", "force")


@record
class Feedback(Command):
    """What a device says of its deployment: `said` is the pair of execution and finished."""

    credential: Credential
    action: int
    said: tuple
    details: tuple
    number: int = None

    kind = "deployment"


@record
class CancelFeedback(Command):
    """What it says of a cancel."""

    credential: Credential
    action: int
    said: tuple
    details: tuple
    number: int = None

    kind = "cancel"


ShowModule = query("ShowModule", "module")
ShowModules = query("ShowModules", "page")
ShowArtifact = query("ShowArtifact", "module", "artifact")
ShowArtifacts = query("ShowArtifacts", "module", "page")
ShowContents = query("ShowContents", "module", "artifact")
ShowSet = query("ShowSet", "set")
ShowSets = query("ShowSets", "page")
ShowTarget = query("ShowTarget", "target")
ShowTargets = query("ShowTargets", "filter", "page")
ShowAction = query("ShowAction", "target", "action")
ShowTargetActions = query("ShowTargetActions", "target", "page")
ShowHistory = query("ShowHistory", "target", "action", "page")
ShowRollout = query("ShowRollout", "rollout")
ShowRollouts = query("ShowRollouts", "page")
ShowGroup = query("ShowGroup", "rollout", "group")
ShowGroups = query("ShowGroups", "rollout", "page")
ShowGroupTargets = query("ShowGroupTargets", "rollout", "group", "page")
ShowReport = query("ShowReport", "rollout")
ShowActionsTable = query("ShowActionsTable", "rollout")
Poll = query("Poll", "credential")
ShowDeployment = query("ShowDeployment", "credential", "action")
ShowCancel = query("ShowCancel", "credential", "action")
Download = query("Download", "credential", "module", "filename")
