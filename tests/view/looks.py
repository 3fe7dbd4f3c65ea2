"""How the page looks: to eyes of all kinds, in windows of all sizes; its numbers, and its times in seconds."""

import colours
import runs
from pages import judge


# ---- Eyes and widths.

def check_eyes(page):
    style = "[...getComputedStyle(document.documentElement)].filter(n => n.startsWith('--'))" \
        ".map(n => [n.slice(2), getComputedStyle(document.documentElement).getPropertyValue(n).trim()])"
    for dark in (False, True):
        page.browser.scheme(dark)
        page.open(runs.EXAMPLES / "phases.aim", runs.EXAMPLES / "phases.out")
        theme = "dark" if dark else "light"
        judge(f"{theme}: as the system says", theme, page.run("document.documentElement.dataset.theme"))
        own = dict(page.run(style))
        for over, under, least in colours.TEXTS:
            judge(f"{theme}: {over} on {under} reads well", True, colours.contrast(own[over], own[under]) >= least)
        judge(f"{theme}: what is confirmed, refused and asked, for all eyes", [],
              colours.alike([own[name] for name in ("lamp", "fault", "accent")], 18))
    page.browser.scheme(False)
    judge("vehicles' colours for all eyes", [], colours.alike(page.run("HUES")))
    page.open(runs.EXAMPLES / "phases.aim", runs.EXAMPLES / "phases.out")
    page.browser.press_in("#theme")
    judge("the switch to dark", "dark", page.run("document.documentElement.dataset.theme"))
    page.browser.key("t")
    judge("and back by its key", "light", page.run("document.documentElement.dataset.theme"))


def check_widths(page):
    for wide in (320, 390):
        page.browser.size(wide, 740, 2, True)
        for name in ("siren", "route", "lossy", "twelve-lanes"):
            page.open(runs.EXAMPLES / f"{name}.aim", runs.output_of(name), after="#vehicle=0")
            judge(f"{name} at a width of {wide}", wide, page.run("document.documentElement.scrollWidth"))
    page.browser.size(1280, 900)


def check_windows(page):
    """The plan is large, and the axis of time in sight, in windows of three sizes; the plan alone is larger still."""
    for wide, high, least, alone in ((1366, 768, 460, 660), (1920, 1080, 700, 960), (1280, 720, 420, 610)):
        page.browser.size(wide, high)
        page.open(runs.EXAMPLES / "siren.aim", runs.EXAMPLES / "siren.out")
        own, whole = [], []
        for found in (own, whole):
            found += page.run("(() => { const axis = $('axis').getBoundingClientRect(); return [Math.min("
                              "plan.clientWidth, plan.clientHeight), axis.top >= 0 && axis.bottom <= innerHeight, "
                              "document.documentElement.scrollHeight <= innerHeight]; })()")
            page.browser.key("f")
        judge(f"{wide} by {high}: the plan is large, the axis in sight, nothing to scroll", [True, True, True],
              [own[0] >= least, *own[1:]])
        judge(f"{wide} by {high}: the plan alone", [True, True, True], [whole[0] >= alone, *whole[1:]])
    page.browser.key("f")
    page.browser.key("Escape")
    page.browser.size(1000, 500)
    page.browser.settle()
    judge("in a low window the plan is no higher than it", True, page.run("plan.clientHeight <= innerHeight - 40"))
    page.browser.size(1280, 720)
    judge("Escape shows all again", False, page.run("document.body.classList.contains('whole')"))
    page.browser.size(1280, 900)


def check_scrollbars(page):
    """Where scrollbars take room, the rows of the timeline are as wide as the axis, and nothing else scrolls."""
    page.browser.call("Emulation.setScrollbarsHidden", hidden=False)
    page.browser.size(1366, 768)
    page.open(runs.EXAMPLES / "siren.aim", runs.EXAMPLES / "siren.out")
    judge("the rows have a scrollbar", True, page.run("$('times').offsetWidth > $('times').clientWidth"))
    judge("rows and axis are of one width", 0, page.run("$('time').clientWidth - $('axis').clientWidth"))
    judge("and begin at one place", 0, page.run("$('time').getBoundingClientRect().x - $('axis').getBoundingClientRect().x"))
    judge("the page has none", [0, 0], page.run("[innerWidth - document.documentElement.clientWidth, "
                                                "document.documentElement.scrollHeight - innerHeight]"))
    page.browser.call("Emulation.setScrollbarsHidden", hidden=True)
    page.browser.size(1280, 900)


def check_labels(page):
    """No number is covered: not by another, nor by a sign, and none is missing."""
    for wide, high, phone in ((1366, 768, False), (390, 844, True)):
        page.browser.size(wide, high, 1, phone)
        for each in runs.stored():
            if each.chart_step() is not None:
                continue
            page.open(each.script, each.output)
            judge(f"{each.name}: numbers at a width of {wide}", [], page.ask("wrongLabels"))
    page.browser.size(1280, 900)
    page.open(runs.EXAMPLES / "refusal.aim", runs.EXAMPLES / "refusal.out", after="#entry=1")
    judge("numbers are painted last", 0, page.ask("paintedLast"))
    words = page.run("view.labels.drawn.map(label => label.word)")
    judge("the numbers of who holds and who asked", [True, True], ["0" in words, "1" in words])


def share_of_real_time(page):
    """How much of two seconds passes on the page in two seconds, at the pace of real time."""
    return page.run("stop(); setTime(50); state.pace = 1; play(1); new Promise(go => requestAnimationFrame(() => { const from "
                    "= state.time, began = performance.now(); setTimeout(() => requestAnimationFrame(() => go((state.time - "
                    "from) * state.ms / (performance.now() - began))), 2000); }))")


def check_seconds(page):
    """Times in seconds by the length of a step, and a pace in real time."""
    page.open(runs.EXAMPLES / "siren.aim", runs.EXAMPLES / "siren.out", after="#step=215")
    judge("a step in seconds", "4.30", page.run("$('seconds').value"))
    judge("and beside the plan", "Step 215 (4.30 s)", page.text("#under")[:17])
    page.run("$('ms').focus(); $('ms').value = '50'; $('ms').dispatchEvent(new Event('input'))")
    page.browser.settle()
    judge("with steps of 50 ms", "10.75", page.run("$('seconds').value"))
    page.run("$('seconds').focus(); $('seconds').value = '2.5'; $('seconds').dispatchEvent(new Event('change'))")
    judge("a moment by its seconds", 50, page.run("state.time"))
    page.run("document.activeElement.blur()")
    judge("the pace of real time", True, any(0.6 < share_of_real_time(page) < 1.2 for _ in range(3)))
    page.open(runs.EXAMPLES / "siren.aim", runs.EXAMPLES / "siren.out", after="#step=10&ms=100")
    judge("the length of a step in the address", ["1.0", 100], page.run("[$('seconds').value, state.ms]"))


PARTS = (check_eyes, check_widths, check_windows, check_scrollbars, check_labels, check_seconds)
