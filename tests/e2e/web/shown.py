"""The pictures of docs/img/, and the tour that the page is shown by. Not run by itself."""
import signal
import subprocess

from harness import ROOT
from harness.browser import PICTURES

from .steps import case, confirmed, entered

# what devices say that failed
WORDS = (
    "disk full",
    "signature of pump-control.raucb is not valid",
    "disk full",
    "valve 3 doesn't answer after the restart",
)


def on_a_bad_day(browser, env):
    """The question at the start of a rollout whose devices have an older one open,
    and the members of a group that failed in two ways."""
    env.api(
        "POST",
        "/rest/v1/softwaremodules",
        [{"name": "pump-control", "type": "firmware", "version": "2.2"}],
    )
    env.api(
        "POST",
        "/rest/v1/distributionsets",
        [{"name": "pumps", "version": "2.2", "modules": [{"id": 2}]}],
    )
    env.plan("pumps 2.2, which mends 2.1", groups=8, success=80, error=10, start=False, set=2)
    for scheme in ("light", "dark"):
        browser.scheme(scheme)
        entered(browser, env, "#/rollouts/2")
        browser.click("[data-command=start]")
        browser.until("document.getElementById('dialog').open")
        browser.click("#dialog input[value=ask]")
        browser.picture(f"older-open-{scheme}.png", 720)
        entered(browser, env, "#/rollouts/1/groups/2")
        browser.until(
            "document.querySelectorAll('.words li').length === 3 && !document.querySelector('[data-read]')"
        )
        browser.picture(f"members-failed-{scheme}.png", 900)
    browser.scheme("light")


@case()
def pictures(browser, env):
    """A rollout that paused by itself, in light and dark, on a phone and in a wide window, and a new one as it is planned."""
    env.api(
        "POST",
        "/rest/v1/softwaremodules",
        [{"name": "pump-control", "type": "firmware", "version": "2.1"}],
    )
    env.api(
        "POST",
        "/rest/v1/distributionsets",
        [{"name": "pumps", "version": "2.1", "modules": [{"id": 1}]}],
    )
    rows = "".join(
        f"dev-{k:05},Pump {k},tok-dev-{k:05},{'lab' if k % 3 else 'lab north'}\n"
        for k in range(1, 1601)
    )
    env.api("POST", "/desk/v1/import", f"controllerid,name,token,tags\n{rows}")
    env.plan("pumps 2.1", groups=8, success=80, error=10)
    bad = set(range(7, 161, 23)) | set(range(203, 395, 9))
    for k in [*range(1, 188), *range(201, 396)]:
        env.report(k, "failure" if k in bad else "success", [WORDS[k % 4]] if k in bad else ())
        if k in bad and env.api("GET", "/rest/v1/rollouts/1")["status"] == "paused":
            break
    entered(browser, env, "#/rollouts/1?success=80&error=10")
    browser.until("document.querySelector('.cause')")
    for scheme in ("light", "dark"):
        browser.scheme(scheme)
        browser.picture(f"rollout-paused-{scheme}.png", 900)
    browser.scheme("light")
    for width, height in ((390, 844), (1440, 900)):
        browser.picture(f"rollout-paused-{width}.png", height, width)
    entered(browser, env, "#/rollouts/new")
    browser.type("#rollout-name", "pumps north")
    browser.type("#rollout-filter", "tag==north;attribute.os!=2*")
    browser.until("document.querySelector('[data-matching=\"533\"]')")
    browser.type("#rollout-groups", "6")
    browser.picture("rollout-new.png", 720)
    on_a_bad_day(browser, env)
    assert all(it.stat().st_size < 150_000 for it in PICTURES.iterdir())


@case(env=False)
def the_tour(browser, order):
    """examples/first-rollout --page: the rollout pauses by itself within a minute, and is resumed on the page."""
    child = subprocess.Popen(
        [ROOT / "examples/first-rollout", "--page", "--program", order.program],
        stdout=subprocess.PIPE,
        text=True,
    )
    try:
        address = next((it.split()[-1] for it in child.stdout if it.startswith("the page: ")), None)
        assert address, "it prints no address"
        browser.go(address)
        browser.until("document.querySelector('main .cause')", seconds=60)
        assert "error threshold of 25 %" in browser.text("main .cause")
        confirmed(browser, "[data-command=resume]", "Ends the pause")
        browser.until("document.querySelector('[data-command=pause]')")
    finally:
        child.send_signal(signal.SIGINT)
        child.wait(20)
        child.stdout.close()
