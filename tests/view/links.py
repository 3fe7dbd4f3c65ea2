"""The runs that the empty page offers, and links to a moment."""

import json
import random

import runs
from pages import TOOLS, judge

SHOWN = "[state.run?.script.name, state.run?.script.kind, Math.floor(state.time), state.chosen, state.zoom, state.ms]"


def check_samples(page):
    """Each run that the empty page offers, by a press and by keys alone."""
    page.empty()
    count = page.run("document.querySelectorAll('#offered button').length")
    judge("runs are offered", True, count >= 3)
    for at in range(1, count + 1):
        page.empty()
        page.browser.press_in(f"#offered button:nth-child({at})")
        judge(f"run {at}: it is shown", True, page.wait("state.run !== null"))
        page.browser.settle()
        judge(f"run {at}: nothing is told", "", page.told())
        judge(f"run {at}: it is drawn, at some moment", [True, True], [page.ask("isDrawn"), page.run(
            "state.time > state.run.first || state.pinned !== null")])
    page.empty()
    for _ in range(12):
        page.browser.key("Tab")
        if page.run("document.activeElement.parentElement.id") == "offered":
            break
    page.browser.key("Enter")
    judge("by the keys Tab and Enter", True, page.wait("state.run !== null"))
    before = page.run("state.pace = 1 / 10, state.time")
    page.browser.key(" ")
    judge("and then it plays", True, page.wait(f"state.time !== {before} && state.playing === 1"))


def opened(page, link):
    """Opens the page by a link, as another person would."""
    page.browser.open(TOOLS / "view.html", "#" + link.split("#", 1)[1])
    page.browser.settle()
    return page.run(SHOWN)


def check_links(page):
    page.open(runs.EXAMPLES / "siren.aim", runs.EXAMPLES / "siren.out",
              after="#step=215&vehicle=7&zoom=4&ms=50&hide=greens&show=lanes")
    wanted = page.run(SHOWN)
    judge("the moment to be shared", ["siren.aim", "drive", 215, {"kind": "vehicle", "v": 7}, 4, 50], wanted)
    page.browser.key("s")
    judge("the link's window opens by its key", True, page.wait("$('linked').open && $('linktext').value !== ''"))
    link = page.run("$('linktext').value")
    judge("with the run inside", True, "&run=" in link and len(link) < 60000)
    judge("a link shows the run at its moment", wanted, opened(page, link))
    judge("and what is drawn", [False, True], page.run("[state.layers.greens, state.layers.lanes]"))
    page.run("openLink()")
    page.wait("$('linked').open")
    page.browser.press_in("#inside")
    bare = page.run("$('linktext').value")
    judge("without the run", True, "&run=" not in bare and bare.endswith("mark=" + page.run("markOf(textsNow())")))
    opened(page, bare)
    judge("it says what is to be opened", "This link is of siren.aim and siren.out", page.told()[:39])
    page.browser.choose_files([str(runs.EXAMPLES / name) for name in ("siren.aim", "siren.out")])
    page.wait("state.run !== null")
    judge("and then shows the moment", wanted, page.run(SHOWN))
    opened(page, bare)
    page.browser.choose_files([str(runs.EXAMPLES / name) for name in ("phases.aim", "phases.out")])
    page.wait("state.run !== null")
    judge("another run isn't shown so", "The link was made for other texts", page.told()[:33])
    check_bad_links(page, link)
    page.open(runs.EXAMPLES / "route.aim", runs.output_of("route"), after="#crossing=1&step=555&vehicle=1")
    page.run("openLink()")
    page.wait("$('linked').open")
    wanted = page.run(SHOWN)
    judge("a link to the second crossing", [wanted, 1], [opened(page, page.run("$('linktext').value")),
                                                          page.run("state.at")])


def check_bad_links(page, link):
    """Links that are cut or changed are refused; one that is pasted is followed."""
    some = random.Random(7)
    for at in [len(link) - 1, len(link) // 2, *(some.randrange(link.index("&run=") + 5, len(link)) for _ in range(12))]:
        opened(page, link[:at])
        told = page.told()
        judge(f"a link cut at {at}", True, told.startswith("this link: the run in it can't be read"))
    page.empty()
    page.run(f"takePasted({json.dumps(link)})")
    judge("a link that is pasted", True, page.wait("state.run !== null && Math.floor(state.time) === 215"))
    page.empty()
    script, output = ((runs.EXAMPLES / name).read_text() for name in ("first.aim", "first.out"))
    for text in (script, output):
        page.run(f"document.body.dispatchEvent(Object.assign(new ClipboardEvent('paste', {{ bubbles: true, clipboardData: "
                 f"(() => {{ const data = new DataTransfer(); data.setData('text/plain', {json.dumps(text)}); "
                 "return data; })() }))) && 0")
    judge("texts that are pasted", True, page.wait("crossingNow()?.journal.count === 1"))


PARTS = (check_samples, check_links)
