"""Which refusals each call may be answered with, for the table of tests/differential/fuzz."""
from model import routes

LEAST = 10
MORE = {
    f"POST {routes.REST}/targets": "quota",
    f"GET {routes.REST}/targets": "filter",
    f"POST {routes.TARGET}/tags/{{tag}}": "quota",
    f"DELETE {routes.ACTION}": "wrong_state closed_action",
    f"POST {routes.REST}/softwaremodules": "exists quota",
    f"POST {routes.MODULE}/artifacts": "exists locked quota digest",
    f"POST {routes.REST}/distributionsets": "not_found exists quota",
    f"POST {routes.REST}/rollouts": "not_found exists quota filter too_few_targets",
    **{
        f"POST {routes.ROLLOUT}/{it}": "wrong_state"
        for it in ("start", "pause", "resume", "approve", "deny", "triggerNextGroup")
    },
    f"POST {routes.DESK}/import": "quota import_line",
    f"POST {routes.DEVICES}/deploymentBase/{{action}}/feedback": "closed_action quota old_number",
    f"POST {routes.DEVICES}/cancelAction/{{action}}/feedback": "closed_action wrong_state quota old_number",
    f"PUT {routes.DEVICES}/configData": "quota",
}
CREATED = {
    f"POST {routes.REST}/{it}"
    for it in ("targets", "softwaremodules", "distributionsets", "rollouts")
} | {f"POST {routes.MODULE}/artifacts"}
WITHOUT_CALL = ("not_found", "method", "too_large", "head", "length", "head_size", "coding")


def pairs():
    """Each call with each status and refusal that the rules allow, memory and store aside."""
    for call in routes.CALLS:
        yield call, "201" if call in CREATED else "200"
        yield call, "bad_request"
        if routes.is_device(call):
            yield call, "unauthorized"
        if "{" in call.replace("{device}", ""):
            yield call, "not_found"
        yield from ((call, it) for it in MORE.get(call, "").split())
    yield from (("", it) for it in WITHOUT_CALL)


def tell(table):
    """Prints how often each pair was met, a line a call. Answers how many were met too seldom, or aren't allowed."""
    wanted = list(pairs())
    for call in dict.fromkeys(call for call, _ in wanted):
        print(
            f"{call or '(no call)'}: "
            + ", ".join(f"{it} {table[call, it]}" for of, it in wanted if of == call)
        )
    few = [(call, it) for call, it in wanted if table[call, it] < LEAST]
    more = [it for it in table if it not in wanted]
    for call, it in few:
        print(f"FAILED: {call or '(no call)'} met {it} {table[call, it]} times")
    for call, it in more:
        print(f"FAILED: the rules don't allow {it} of {call or 'no call'}")
    return len(few) + len(more)
