"""What the web UI shows of what the console tells, in Chromium through the edge before the real program."""
import datetime
import email
import json
import os
import re
import signal
import subprocess
import time

from selenium.webdriver.common.keys import Keys

from .environment import ROOT, Environment
from .pages import Pages
from harness.processes import eventually


def test_a_pause_reaches_browser_and_webhook_with_when_who_and_why(env, open_browser):
    before = len(env.sink.posts)
    rollout = env.plan(groups=2, error=20, who="ben")
    browser = open_browser(env, f"#/rollouts/{rollout}")
    browser.until("started by ben", "main")
    failed = env.fail(rollout, 2, "disk full")
    seen = browser.until("by itself: group 1: 2 of 10 failed, and 2 pause it", "main .cause")
    while not env.sink.posts[before:]:
        assert time.time() - failed < 10, "no webhook"
        time.sleep(0.02)
    told, _, body = env.sink.posts[before]
    print(
        f"from the failure to the webhook {told - failed:.2f} s, to the browser {seen - failed:.2f} s"
    )
    # a second or two; on a busy machine with a slow program some more
    assert told - failed < 10 and seen - failed < 12
    assert body["kind"] == "paused" and body["group"] == 1 and "2 of 10 failed" in body["words"]
    assert 'Last words: 2 × "disk full"' in body["words"]
    assert body["link"].endswith(f"/page/#/rollouts/{rollout}/groups/1?state=error")
    # a mail and a chat have the same words and the same link
    texts = lambda: [email.message_from_string(it).get_payload(decode=True) for it in env.box.mails]
    wanted = f"{body['words']}\n\n{body['link']}".encode()
    eventually("a mail", lambda: [it for it in texts() if wanted in it], 20)
    chats = lambda: [it["text"] for _, _, it in env.chat.posts if body["link"] in it["text"]]
    assert "2 × `disk full`" in eventually("a chat", chats, 20)[0]
    browser.until("2 × “disk full”", "main .words")
    assert "See the 2 that failed" in browser.text("main a.button.main")
    assert "main" not in browser.js(
        "return document.querySelector('[data-command=resume]').className"
    )
    browser.click("#see-failed")
    browser.until("disk full", "main table")
    browser.go(f"#/rollouts/{rollout}")
    browser.until("Events (")
    assert not browser.faults()


def test_now_leads_to_what_needs_somebody_and_counts_devices(env, open_browser):
    rollout = env.plan("canary", groups=2, error=20)
    for it in env.table(rollout)[5:8]:
        env.report(it["controllerid"], int(it["action"]), "success", "done")
        env.poll(it["controllerid"])
    env.fail(rollout, 2, "no space")
    browser = open_browser(env, "")
    browser.until("by itself: group 1: 2 of 10 failed", "#needs")
    assert browser.js("return location.hash") == ""
    browser.until("pump 1.0", "#devices")
    browser.until("failed", "#devices")
    browser.picture("now")
    browser.click("#needs a.button")
    browser.until("no space", "main table")
    browser.driver.back()
    browser.until("Needs attention", "main")
    browser.click('#devices a[href^="#/devices?set="]')
    browser.until("Devices with pump 1.0", "h1")
    browser.until("dev-", "main table")
    browser.go("#/now")
    browser.until("never seen by the proxy", "#devices")
    browser.click('#devices a[href="#/devices?lacks=poll"]')
    browser.until("Devices that the proxy never saw", "h1")
    browser.until("dev-000", "main table")
    browser.go("#/devices?lacks=version")
    browser.until("Devices without a known version", "h1")
    browser.until("dev-000", "main table")
    browser.go("#/targets/" + env.table(rollout)[5]["controllerid"])
    browser.until("pump 1.0, since", "#device-now")
    browser.until("Last poll", "#device-now")
    browser.until("just now", "#device-now")
    browser.until("done (action ", "#device-said")
    browser.picture("device")
    env.plan("in two groups", groups=2, error=100)
    browser.go("#/now")
    browser.until("10 in progress, 10 waiting", "#runs .under a")
    assert not browser.faults()


def test_a_group_says_when_it_began_and_who_had_it_begin(env, open_browser):
    rollout = env.plan("by groups", groups=2)
    browser = open_browser(env, f"#/rollouts/{rollout}")
    browser.until("waiting", "[data-group='2']")
    env.order(rollout, "triggerNextGroup", "ben")
    browser.until("Began by ben ", "[data-group='2']")
    browser.until("just now", "[data-group='2']")
    assert not browser.faults()


def test_keys_lead_through_the_first_view(env, open_browser):
    """From its heading to the first rollout, into it, and by the link to the content past the head of the page."""
    rollout = env.plan("by keys", groups=1, error=10)
    env.fail(rollout, 2, "no key")
    browser = open_browser(env, "#/now")
    browser.until("by keys", "#needs")
    press = lambda *keys: browser.driver.switch_to.active_element.send_keys(*keys)
    focused = "return document.activeElement.innerText"
    browser.js("document.querySelector('h1').focus()")
    first = browser.js("return document.querySelector('#needs a').innerText")
    press(Keys.TAB)
    assert browser.js(focused) == first
    ring = "return getComputedStyle(document.activeElement).outlineWidth"
    assert browser.js(ring) == "3px"
    press(Keys.ENTER)
    heading = "return document.activeElement.tagName === 'H1' && document.activeElement.innerText"
    eventually("it is opened", lambda: browser.js(heading) == first, 20)
    browser.js("document.getElementById('skip').focus()")
    press(Keys.ENTER)
    assert browser.js("return document.activeElement.id") == "main"
    assert not browser.faults()


def test_history_and_audit_are_filtered_and_saved(env, open_browser):
    rollout = env.plan("told", groups=1, who="ben")
    browser = open_browser(env, f"#/history?of=happened&rollout={rollout}")
    browser.until("rollout “told” was started by “ben”", "main table")
    browser.go(f"#/history?of=audit&rollout={rollout}")
    browser.until(f"POST /rest/v1/rollouts/{rollout}/start", "main table")
    browser.until("ben", "main table")
    browser.picture("audit")
    link = browser.js("return document.querySelector('main a[download]').getAttribute('href')")
    path = link.split(f":{env.port}")[-1]
    status, fields, body = env.ask(path)
    assert status == 200 and fields["content-type"].startswith("text/csv")
    assert f"ben,POST,/rest/v1/rollouts/{rollout}/start" in body.decode()
    assert not browser.faults()


def test_what_happened_and_what_is_refused_is_said_in_german_too(env, open_browser):
    rollout = env.plan("deutsch", groups=2, error=20, who="ben")
    env.fail(rollout, 2, "disk full")
    browser = open_browser(env, "#/now", "eve")
    browser.js("localStorage.setItem('fwdesk-language', 'de'); location.reload()")
    browser.until(
        "Rollout „deutsch“ hielt an, von selbst: Gruppe 1: 2 von 10 fehlgeschlagen", "#lately"
    )
    browser.go(f"#/history?rollout={rollout}")
    browser.until("Rollout „deutsch“ wurde von „ben“ gestartet", "main table")
    browser.until("Letzte Worte: 2 × „disk full“", "main table")
    browser.js(
        "import('./api.js').then(({ask}) => ask('POST', '/rest/v1/rollouts/1/pause'))"
        ".catch((it) => (document.title = it.sentence))"
    )
    said = "Nicht getan: dieser Login darf nicht planen oder steuern."
    eventually("it is refused", lambda: browser.driver.title == said, 10)


def test_hostile_words_are_text_in_each_view(env, open_browser):
    name = '<img src=x onerror=alert(1)>\u202e"&'
    rollout = env.plan(name, groups=1, error=10)
    env.fail(rollout, 2, "</li><script>alert(2)</script>")
    browser = open_browser(env, f"#/rollouts/{rollout}")
    browser.until("</li><script>alert(2)</script>", "main .words")
    for place in ("#/now", "#/rollouts", f"#/history?rollout={rollout}"):
        browser.go(place)
        browser.until("<img src=x onerror=alert(1)>", "main")
    assert browser.js("return document.querySelectorAll('main img, main script').length") == 0
    assert "\u202e" not in browser.text("main table")
    log = (env.folder / "console.log").read_text()
    assert "\u202e" not in log and all(
        it.split()[0] in ("INFO", "WARNING", "ERROR") for it in log.splitlines()
    )
    mail = eventually("the mail", lambda: [it for it in env.box.mails if "onerror" in it], 10)[-1]
    assert "\u202e" not in mail and "Content-Type: text/plain" in mail
    chat = eventually(
        "the chat", lambda: [it for _, _, it in env.chat.posts if "onerror" in it["text"]], 10
    )
    assert "<img" not in chat[-1]["text"] and "`&lt;img" in chat[-1]["text"]
    assert not browser.faults()


def test_held_is_said_on_states_and_questions_and_release_is_whole(env, open_browser):
    rollout = env.plan("held", groups=2, start=False)
    running = env.plan("under way", groups=1)
    for version in (1, 2):
        over = env.plan(groups=1, set_=version, text="controllerid==dev-00020")
        env.report("dev-00020", int(env.table(over)[0]["action"]), "success", "done")
    browser = open_browser(env, f"#/rollouts/{rollout}")
    browser.until("Hold everything", "#held")
    outline = (
        "const it = getComputedStyle(document.getElementById('hold')); return [it.borderTopWidth, "
        "it.borderTopColor, it.color]"
    )
    red = "rgb(196, 41, 28)"  # --bad of web/style.css
    assert browser.js(outline) == ["2px", red, red]
    assert env.ask("/fwdesk/brake?kind=brake&reason=it+burns", "POST")[0] == 200
    try:
        browser.until("Everything is held: by anna", "#held")
        for width in (1440, 1024, 390):
            browser.driver.set_window_size(max(width, 500), 900)
            browser.wide(width)
            box = browser.js(
                "const it = document.querySelector('#held .notice button').getBoundingClientRect(); return [it.width, it.height]"
            )
            assert box[0] > 70 and box[1] < 50, (width, box)
            browser.picture(f"held-{width}")
        browser.wide(1440)
        browser.click("[data-command=start]")
        question = "Everything is held: no device is told of this before the release."
        browser.until(question, "dialog[open]")
        browser.click("dialog [value=no]")
        browser.go(f"#/rollouts/{over}")
        browser.until("Roll back", "main .buttons")
        browser.click("#rollback")
        browser.until(question, "dialog[open]")
        browser.click("dialog [value=no]")
        browser.go(f"#/rollouts/{running}")
        browser.until("held: told at the release", "main .line")
        browser.until("held: told at the release", "main .group")
        browser.go("#/now")
        browser.until("Everything is held by anna", "#needs")
    finally:
        assert env.ask("/fwdesk/brake?kind=brake", "DELETE")[0] == 200
    browser.until("Hold everything", "#held")
    assert not browser.faults()


def test_pages_say_what_they_cannot_know_while_the_console_is_away(env, open_browser):
    rollout = env.plan("away", groups=1)
    browser = open_browser(env, f"#/rollouts/{rollout}")
    browser.until("started by anna", "main .acts")
    for how in ("killed", "hung"):
        if how == "killed":
            env.kill(env.console)
        else:
            os.killpg(env.console.pid, signal.SIGSTOP)
        began = time.time()
        said = browser.until("The console is away since", "#watching", 20)
        print(f"{how}: said after {said - began:.1f} s")
        assert said - began < 10
        browser.until_not("started by anna", "main")
        assert "running" in browser.text("main .line") and time.time() - began < 15
        env.order(rollout, "pause", "ben")
        browser.until("Paused by an operator", "main .cause", 15)
        if how == "killed":
            env.console = env.start_console()
        else:
            os.killpg(env.console.pid, signal.SIGCONT)
        browser.until("started by anna", "main .acts", 20)
        assert browser.text("#watching") == ""
        env.order(rollout, "resume", "ben")
        browser.until("running", "main .line")


def test_the_first_view_says_of_when_it_is_while_the_console_is_away(env, open_browser):
    env.plan("first view", groups=1)
    browser = open_browser(env, "#/now")
    browser.until("first view", "#runs")
    assert "This view is of" not in browser.text("main")
    assert browser.text("#asked").startswith("as of ")
    moment = lambda: sum(
        60**k * int(it) for k, it in enumerate(re.findall(r"\d+", browser.text("#asked"))[::-1])
    )
    env.kill(env.console)
    try:
        browser.until("This view is of", "main", 10)
        told = moment()
        # the server is asked for what is held, and its answers make nothing else newer
        before = len(browser.asked())
        eventually("the server answers", lambda: len(browser.asked()) > before + 6, 30)
        assert abs(moment() - told) <= 1 and "first view" in browser.text("#runs")
    finally:
        env.console = env.start_console()
    browser.until_not("This view is of", "main", 20)
    assert not browser.faults()


def test_what_stands_still_is_shown_with_the_ways_on(tmp_path, open_browser):
    env = Environment(tmp_path, stands_after=3)
    try:
        env.make_fleet(4)
        rollout = env.plan("still", groups=1, success=90)
        for it in env.table(rollout)[:2]:
            env.report(it["controllerid"], int(it["action"]), "success", "done")
        browser = open_browser(env, f"#/rollouts/{rollout}")
        said = "2 of 4 in group 1 have reported no outcome. 2 succeeded, 4 are needed."
        browser.until(said, "main .stands")
        assert browser.text("main .stands").startswith("Stands still since ")
        assert "wait, start the next group, or cancel what is in progress" in browser.text("main")
        browser.go("#/now")
        browser.until(said, "#needs")
        told = lambda: [it for _, _, it in env.sink.posts if it["kind"] == "stands"]
        assert len(eventually("it is told", told, 10)) == 1 and told()[0]["rollout"] == rollout
        for it in env.table(rollout)[2:]:
            env.report(it["controllerid"], int(it["action"]), "success", "done")
        browser.until("Nothing needs attention.", "#needs")
        assert not browser.faults()
    finally:
        env.end()


def test_a_dead_desk_and_a_full_disk_are_said_on_the_page(tmp_path, open_browser):
    env = Environment(tmp_path)
    try:
        env.make_fleet(4)
        rollout = env.plan("said", groups=1)
        browser = open_browser(env, "#/now")
        browser.until("said", "#runs")
        os.system(f"prlimit --pid {env.console.pid} --fsize=1000:")
        env.order(rollout, "pause")
        browser.until("The console can't keep what it sees (", "#watching", 30)
        os.system(f"prlimit --pid {env.console.pid} --fsize=unlimited:")
        eventually("it is kept again", lambda: browser.text("#watching") == "", 60)
        env.kill(env.desk)
        browser.until("The server doesn't answer since ", "#watching", 60)
        browser.until("This view is of", "main")
        assert "said" in browser.text("#needs")
        env.desk = env.start_desk()
        eventually("it answers again", lambda: browser.text("#watching") == "", 60)
        browser.until_not("This view is of", "main")
        assert not browser.faults()
    finally:
        env.end()


def test_a_word_finds_devices_by_id_and_name(env, open_browser):
    browser = open_browser(env, "#/targets")
    for typed, found in (
        ("00007", "dev-00007"),
        ("Device 12", "dev-00012"),
        ("controllerid==dev-00003", "dev-00003"),
    ):
        browser.go("#/targets")
        browser.until("dev-00001", "main table")
        browser.type("#fleet-filter", typed)
        browser.until("1 device matches", "#fleet-filter-told")
        browser.click("form[role=search] button")
        browser.until_not("dev-00001", "main table")
        assert found in browser.text("main table")


def test_who_may_only_look_sees_all_of_it_and_no_button(env, open_browser):
    browser = open_browser(env, "#/now", "eve")
    browser.until("Devices", "main")
    for place in ("#/history", "#/history?of=audit"):
        browser.go(place)
        browser.until("rollout", "main table")
    assert "Hold everything" not in browser.text()


def test_who_may_not_look_is_told_that_and_not_that_the_console_is_away(env, open_browser):
    browser = open_browser(env, "#/rollouts", "hal")
    # as where somebody else was logged in before
    browser.js("localStorage.setItem('fwdesk-console', 'seen'); location.reload()")
    browser.until("this login may not look", "main")
    asked = lambda: sum(it.startswith("/fwdesk/state") for it in browser.asked())
    eventually("the console is asked for", asked, 20)
    time.sleep(1)
    assert browser.text("#watching") == ""
    assert browser.js(
        "return [...document.querySelectorAll('#pages .console')].every((it) => it.hidden)"
    )


def test_an_approval_names_who_asks_and_who_approved(tmp_path, open_browser):
    env = Environment(tmp_path, approval=True)
    try:
        env.make_fleet(4)
        rollout = env.plan("asked", groups=1, who="ben", start=False)
        browser = open_browser(env, "#/now")
        browser.until("ben asks for approval", "#needs")
        browser.go(f"#/rollouts/{rollout}")
        browser.until("ben asks for approval", "main .cause")
        browser.go("#/rollouts")
        browser.until("ben asks for approval", "main .card")
        env.order(rollout, "approve", "anna")
        browser.go(f"#/rollouts/{rollout}")
        browser.until("approved by anna", "main .acts")
        assert "planned by ben" in browser.text("main .acts").lower()
        assert "asks for approval" not in browser.text("main")
        assert not browser.faults()
    finally:
        env.end()


def test_twenty_pages_cost_the_desk_as_little_as_one(env, open_browser):
    """One browser, and nineteen that ask as its page does: what they have seen isn't sent again."""
    paused = env.plan("twenty", groups=2, error=20)
    env.fail(paused, 2)
    for it in env.api("/rest/v1/rollouts?limit=500")["content"]:
        if it["status"] == "running":
            env.order(it["id"], "pause")
    browser = open_browser(env, f"#/rollouts/{paused}")
    browser.until("by itself: group 1: 2 of 10 failed", "main .cause")
    time.sleep(20)
    going = env.api("/rest/v1/rollouts?limit=500")["total"]
    counts = []
    for count in (0, 19):
        with Pages(env, count, f"/fwdesk/state?rollout={paused}") as pages:
            time.sleep(2)
            before = env.desk_requests()
            time.sleep(60)
            counts.append(env.desk_requests() - before)
    print(
        f"{going} paused rollouts: 1 page {counts[0]}, 20 pages {counts[1]} requests a minute to the desk"
    )
    # the list of rollouts each ten seconds, the groups of each paused one each thirty, and once the page's own look
    assert max(counts) <= 7 + 3 * going + 3
    # a state that changes is sent to each page once, and none a second time
    assert not pages.sent_twice and set(pages.statuses) == {200, 304}
    assert pages.statuses.count(304) > len(pages.statuses) / 2


def clock_of(folder):
    """A folder for timers, and what leads fwdesk-ctl and the console to it; nothing is told to systemd."""
    for it in ("units", "book", "programs"):
        (folder / it).mkdir()
    for it in ("systemctl", "systemd-analyze", "fwdesk-brake"):
        (folder / "programs" / it).symlink_to("/bin/true")
    return {"FWDESK_UNITS": f"{folder}/units", "FWDESK_CLOCK": f"{folder}/book"}


def test_a_filtered_list_in_another_order_is_the_consoles(env, open_browser):
    """All devices that match are read from the desk by nobody; what is no filter is refused by the desk, as in its own order."""
    first = lambda: browser.text("main tbody tr td")
    browser = open_browser(env, "#/targets?q=name%3D%3D*1*&sort=-name")
    # of 20 devices 1 and 10 to 19
    browser.until("dev-00019", "main table")
    browser.until("as counted at", "main")
    assert first() == "dev-00019" and len(browser.text("main tbody").splitlines()) >= 11
    browser.go("#/targets?q=name%3D%3D*1*&sort=name")
    eventually("the other way round", lambda: first() == "dev-00001", 20)
    browser.go("#/targets?q=Device&offset=0&sort=-id")
    eventually("by a word", lambda: first() == "dev-00020", 20)
    asked = browser.asked()
    assert sum(it.startswith("/fwdesk/devices?q=") for it in asked) >= 3, asked
    assert not any("/rest/v1/targets?q=" in it and "limit=500" in it for it in asked), asked
    browser.go("#/targets?q=name%3D%3D&sort=name")
    browser.until("Refused: the filter can't be read (number 11).", "main")
    lines = browser.faults()
    assert all("status of 400" in it for it in lines), lines


def test_what_is_to_come_is_listed_in_this_browsers_times(tmp_path, open_browser, monkeypatch):
    """Scheduled commands, quiet hours and what wasn't done lately; where nothing is to come there is nothing."""
    own = clock_of(tmp_path)
    for name, value in own.items():
        monkeypatch.setenv(name, value)
    env = Environment(tmp_path)
    try:
        browser = open_browser(env, "#/now")
        browser.until("Nothing needs attention.", "#needs")
        assert browser.js("return document.getElementById('coming').hidden")
        path = f"{tmp_path}/programs:{os.environ['PATH']}"
        order = lambda *words: subprocess.run(
            [ROOT / "cli/fwdesk-ctl", *words],
            env={**os.environ, "PATH": path},
            check=True,
            stdout=subprocess.DEVNULL,
        )
        later = "2030-01-02T03:04:05+00:00"
        order("at", later, "hold", "--reason", "a <b>night</b>", "--if-missed", "do")
        order("quiet", "00:00-23:59", "--zone", "UTC")
        book = tmp_path / "book/orders.json"
        told = json.loads(book.read_text())
        now = datetime.datetime.now(datetime.timezone.utc)
        ago = (now - datetime.timedelta(hours=1)).isoformat(timespec="seconds")
        one = {
            "number": 9,
            "at": ago,
            "words": ["start", "7"],
            "zone": "UTC",
            "missed": "tell",
            "who": "anna",
            "url": "http://127.0.0.1:8081",
            "ended": ago,
        }
        old = {"words": ["start", "6"], "ended": "2026-01-01T00:00:00+00:00", "told": "long ago"}
        told["ended"] = [
            {**one, **old, "outcome": "refused"},
            {**one, "words": ["start", "5"], "outcome": "done", "told": ""},
            {**one, "outcome": "refused", "told": "409 wrong_state: x"},
        ]
        book.write_text(json.dumps(told))
        look = lambda count: browser.js(
            "document.dispatchEvent(new Event('visibilitychange'));"
            "return document.querySelectorAll('#coming li').length === arguments[0]",
            count,
        )
        eventually("three are listed", lambda: look(3), 20)
        lines = browser.text("#coming ul").splitlines()
        assert lines[0].startswith(("Quiet until ", "Quiet from ")), lines
        assert lines[0].endswith(": no firmware is handed out then (00:00-23:59, UTC)"), lines
        assert ": hold --reason a <b>night</b> (" in lines[1], lines
        assert lines[1].endswith("), later where it is missed"), lines
        assert lines[2].endswith(": start 7 (anna) refused: 409 wrong_state: x"), lines
        when = "return document.querySelectorAll('#coming time')[1].dateTime"
        assert browser.js(when) == later
        # while the console is away what it told last stays
        env.kill(env.console)
        look(3)
        browser.until("The console is away since", "#watching", 20)
        assert look(3) and not browser.js("return document.getElementById('coming').hidden")
        env.console = env.start_console()
        order("at", "--cancel", "1")
        order("quiet", "off")
        eventually("one is listed", lambda: look(1), 20)
        assert browser.text("#coming h2") == "Scheduled"
        assert not browser.faults()
    finally:
        env.end()
