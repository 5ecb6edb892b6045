"""The languages of the UI. Not run by itself."""
import json

from .steps import case, entered

# what each view says in German: words of its frame, of states and of counts
GERMAN = {
    "#/rollouts": ("Rollouts", "läuft", "in Arbeit"),
    "#/rollouts/1": ("Gruppe 1", "erfolgreich", "wartend"),
    "#/rollouts/1/groups/1": ("alle", "Geräte der Gruppe"),
    "#/targets": ("Flotte", "in Arbeit"),
    "#/targets/dev-00001": ("Aktionen", "erfolgreich"),
    "#/firmware": ("Module", "in einem Satz"),
    "#/rollouts/new": ("Neuer Rollout", "Gleich große Gruppen"),
}


def all_words(browser):
    return browser.js(
        "return document.body.innerText + [...document.querySelectorAll('[aria-label]')]"
        ".map((it) => it.getAttribute('aria-label')).join(' ')"
    ).lower()


@case()
def the_browsers_language_and_the_switch(browser, env):
    """A German browser is shown German, another one English; what is chosen holds from then on, in other windows too."""
    env.fleet(6)
    env.plan(groups=2)
    env.report(1, "success")
    accept = lambda it: browser.devtools(
        "Emulation.setUserAgentOverride",
        userAgent=browser.js("return navigator.userAgent"),
        acceptLanguage=it,
    )
    try:
        for language, word in (("de-AT,en", "Flotte"), ("fr,en", "Fleet"), ("fr", "Fleet")):
            accept(language)
            entered(browser, env, "#/targets")
            assert browser.text("h1") == word, (language, browser.text("h1"))
        browser.js(
            "const it = document.getElementById('language'); it.value = 'de'; it.dispatchEvent(new Event('change'))"
        )
        browser.until("document.querySelector('h1')?.innerText === 'Flotte'")
        for place, words in GERMAN.items():
            entered(browser, env, place)
            shown = all_words(browser)
            assert all(it.lower() in shown for it in words), (place, words, shown[:600])
            assert browser.js("return document.documentElement.lang") == "de"
        entered(browser, env, "#/targets?q=name%3D%3D")
        refused = "Abgelehnt: der Filter ist nicht lesbar (Nummer 11)."
        browser.until(f"document.querySelector('main').innerText.includes({json.dumps(refused)})")
        browser.js("localStorage.removeItem('fwdesk-language')")
    finally:
        accept("en-US,en")
