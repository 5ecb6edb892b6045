"""The files behind the proxies and their logins. Not run by itself."""
import base64

from harness import ROOT
from harness.processes import HOST
from harness.proxies import LOGIN

from .steps import case, compared, confirmed, entered

SECURITY = {
    "content-security-policy": "default-src 'self'",
    "x-content-type-options": "nosniff",
    "x-frame-options": "DENY",
}
KINDS = {".html": "text/html", ".css": "text/css", ".js": "javascript", ".svg": "image/svg+xml"}


def served_behind_the_login(_, env):
    """Each file is served with its kind and the fields that guard it, to those who log in, and nothing else is."""
    for it in sorted((ROOT / "web").iterdir()):
        path = f"/page/{it.name if it.name != 'index.html' else ''}"
        assert env.ask("GET", path, fields={})[0] == 401, path
        status, fields, body = env.ask("GET", path)
        assert status == 200 and body == it.read_bytes(), (path, status)
        assert KINDS[it.suffix] in fields["content-type"], (path, fields["content-type"])
        assert all(value in fields.get(name, "") for name, value in SECURITY.items()), (
            path,
            fields,
        )
    login = {"Authorization": f"Basic {base64.b64encode(':'.join(LOGIN).encode()).decode()}"}
    assert env.ask("GET", "/")[1]["location"].endswith("/page/")
    assert env.ask("GET", "/page/none.js")[0] == 404 and env.ask("GET", "/page/../server.pem")[
        0
    ] in (400, 404)
    assert env.ask("POST", "/page/", b"x")[0] in (403, 405)
    module = [{"name": "app", "type": "os", "version": "1.0"}]
    for site in ("cross-site", "same-site", "none"):
        assert (
            env.ask("POST", "/rest/v1/softwaremodules", module, login | {"Sec-Fetch-Site": site})[0]
            == 403
        ), site
    assert (
        env.ask(
            "POST", "/rest/v1/softwaremodules", module, login | {"Sec-Fetch-Site": "same-origin"}
        )[0]
        == 201
    )
    assert env.ask("POST", "/rest/v1/softwaremodules", [module[0] | {"version": "2"}])[0] == 201
    # a browser that is too old for that field says its origin; the scheme and the port belong to it
    ours = f"https://{HOST}:{env.port}"
    for origin in (
        "https://elsewhere.example",
        "null",
        f"http://{HOST}:{env.port}",
        f"https://{HOST}",
        f"{ours}.elsewhere.example",
    ):
        for field in ({}, {"Sec-Fetch-Site": "same-origin"}):
            assert (
                env.ask(
                    "POST", "/rest/v1/softwaremodules", module, login | {"Origin": origin} | field
                )[0]
                == 403
            ), origin
    assert (
        env.ask(
            "GET",
            "/rest/v1/softwaremodules",
            fields=login | {"Origin": "https://elsewhere.example"},
        )[0]
        == 200
    )
    assert (
        env.ask(
            "POST",
            "/rest/v1/softwaremodules",
            [module[0] | {"version": "3"}],
            login | {"Origin": ours},
        )[0]
        == 201
    )


@case()
def through_haproxy(browser, env):
    served_behind_the_login(browser, env)


@case(fleets=True)
def one_of_many_fleets(browser, env):
    """The page of a fleet asks below its path, and leads to the operator's other ones."""
    env.fleet(3)
    env.plan(groups=1, start=False)
    entered(browser, env)
    assert browser.js("return document.getElementById('fleets').hidden"), "a desk alone has fleets"
    browser.forget()
    browser.go(env.address("#/rollouts/1").replace("/page/", "/fleets/acme/page/"))
    confirmed(browser, "[data-command=start]", "Starts group 1: 3 devices are offered r2 1.0.")
    browser.until("document.querySelector('[data-command=pause]')")
    assert (
        all("/fleets/acme/rest/v1/" in it[0] for it in browser.asked())
        and env.api("GET", "/rest/v1/rollouts/1")["status"] == "running"
    )
    assert all(
        "/fleets/acme/desk/v1/rollouts/1/" in it
        for it in browser.js(
            "return [...document.querySelectorAll('.files a')].map((it) => it.href)"
        )
    )
    fleets = browser.js(
        "return [...document.querySelectorAll('#fleets a')].map((it) => [it.innerText, it.pathname, "
        "it.ariaCurrent])"
    )
    assert fleets == [
        ["acme", "/fleets/acme/page/", "page"],
        ["other", "/fleets/other/page/", "false"],
    ], fleets


@case(proxy="nginx")
def through_nginx(browser, env):
    """The files, and a rollout that is shown and started."""
    served_behind_the_login(browser, env)
    env.api(
        "POST",
        "/rest/v1/distributionsets",
        [{"name": "r2", "version": "1.0", "modules": [{"id": 1}]}],
    )
    env.api(
        "POST", "/desk/v1/import", "controllerid,name,token,tags\ndev-00001,One,tok-dev-00001,\n"
    )
    env.plan(groups=1, start=False)
    entered(browser, env, "#/rollouts/1")
    confirmed(browser, "[data-command=start]", "Starts group 1: 1 device is offered r2 1.0.")
    browser.until("document.querySelector('[data-command=pause]')")
    compared(browser, env)
