"""Drives the page of a run in a browser and reads it.

    drive_page.py PAGE SENTENCES LONG_PAGE FLOORS RETURNS

PAGE is the page of examples/hand-off.frames, SENTENCES what `frames tell` says of it, LONG_PAGE the page
of a run of 3,000 frames, FLOORS what some of its frames left: a line for each with the frame and the floor's
cells in JSON, RETURNS the page of a cart that receives, retires, enters again and receives again. Ends with 77 where there is no browser, with 1 at the first difference.
"""

import json
import sys

import chromium

SKIPPED = 77
SIZES = [(1440, 900), (1024, 768), (390, 844)]
LEFT, RIGHT, HOME, END, TAB, PAGE_DOWN = 37, 39, 36, 35, 9, 34


def same(found, wanted, what):
    """Ends with what was found and wanted, of long texts from a little before where they part."""
    if found == wanted:
        return
    found, wanted = repr(found), repr(wanted)
    part = next((k for k, pair in enumerate(zip(found, wanted)) if pair[0] != pair[1]), 0)
    begin = max(0, part - 60)
    sys.exit(f"{what}: found {found[begin:begin + 200]}, wanted {wanted[begin:begin + 200]}")


def text(browser, place):
    """What stands there, blanks as one."""
    script = f"document.querySelector({place!r}).innerText.replace(/\\s+/g, ' ').trim()"
    return browser.value(script)


def frame(browser):
    return int(browser.value("document.getElementById('slider').value"))


def every_sentence(browser, sentences):
    """From frame to frame by the right arrow, and back by the left one."""
    lines = [line.rstrip("\n").split("  ", 1) for line in open(sentences, encoding="utf-8")]
    for k, (printed, sentence) in enumerate(lines):
        same(frame(browser), k, "frame")
        same(text(browser, "#sentence"), f"{printed} {sentence.strip()}", f"sentence {k}")
        same(text(browser, "#where"), f"frame {k} of {len(lines) - 1}", "where")
        browser.press("ArrowRight", RIGHT)
    same(frame(browser), len(lines) - 1, "behind the last frame there is none")
    browser.press("ArrowLeft", LEFT)
    same(frame(browser), len(lines) - 2, "the frame before the last")
    browser.press("Home", HOME)
    same(frame(browser), 0, "Home")
    browser.press("PageDown", PAGE_DOWN)
    same(frame(browser), 10, "Page Down")
    browser.press("End", END)
    same(frame(browser), len(lines) - 1, "End")


def slide(browser, to, last):
    """Takes the slider to a frame with the mouse."""
    box = "document.getElementById('slider').getBoundingClientRect()"
    left, top, wide, high = (browser.value(f"{box}.{side}") for side in ("left", "top", "width", "height"))
    thumb = 16
    browser.click(left + thumb / 2 + (wide - thumb) * to / last, top + high / 2)
    same(frame(browser), to, "the slider")


def the_floor(browser):
    """The floor of examples/hand-off.txt while cart 0 is on its way, when it receives, and at the end."""
    slide(browser, 8, 19)
    same(text(browser, "[data-station='0']"), "Station 0 no cart nobody waits", "station 0")
    same(text(browser, "[data-station='1']"), "Station 1 1 correction 0 of station 2, for 1", "station 1")
    same(text(browser, "[data-cart='0']"), "0 on its way to station 1 2:0 2b05", "cart 0")
    same(text(browser, "[data-cart='0'] .owed"), "2:0 2b05", "what cart 0 is owed")
    held = "Correction 0 of station 2 2b05 still to receive 0 1 kept at stations 0, 1"
    same(text(browser, "#held"), held, "held")
    lines = "Station 0 to 1 0 is handed over Station 2 to 2 correction 0 of station 2"
    same(text(browser, "#lines"), lines, "lines")
    slide(browser, 11, 19)
    same(text(browser, "[data-cart='0']"), "0 at station 1 2:0 2b05", "cart 0 has received")
    same(text(browser, "[data-cart='0'] .owed"), "", "nothing is owed")
    same(text(browser, "#held .state dt"), "received, not yet reported", "held after the receipt")
    slide(browser, 6, 19)
    same(browser.value("document.getElementById('sentence').className"), "refused", "a refusal")
    same(text(browser, "[data-cart='0']"), "0 leaving station 0 for 1 2:0 2b05", "cart 0 leaves")
    slide(browser, 19, 19)
    same(text(browser, "#held"), "No correction is held.", "held at the end")
    same(text(browser, "#lines"), "Every line is empty.", "lines at the end")


def a_cart_that_returns(browser, page):
    """Its lists begin at its latest entry: its retirement empties neither."""
    browser.size(*SIZES[0])
    browser.open(page)
    same(text(browser, "#outside"), "No cart has entered.", "before its entry")
    wanted = {
        6: "0 at station 0 0:0 a1",
        7: "0 back at the factory 0:0 a1",
        8: "0 at station 0",
        9: "0 at station 0 0:1 a2",
        11: "0 at station 0 0:1 a2",
    }
    for to, row in wanted.items():
        slide(browser, to, 11)
        same(text(browser, "[data-cart='0']"), row, f"frame {to} of a cart that returns")
        owed = "0:1 a2" if to == 9 else ""
        same(text(browser, "[data-cart='0'] .owed"), owed, f"owed in frame {to}")


def the_picture(browser):
    """A click on a row goes there, and the arrows of its records stand out."""
    box = "document.getElementById('drawing').getBoundingClientRect()"
    left, top = (browser.value(f"{box}.{side}") for side in ("left", "top"))
    row = browser.value("run.picture.row")
    browser.click(left + 20, top + 3.5 * row)
    same(frame(browser), 3, "a click on row 3")
    same(browser.value("document.querySelectorAll('#shapes g.now').length"), 3, "arrows of the send")
    same(browser.value("document.querySelectorAll('#shapes .got').length"), 2, "receipts")


def by_keyboard_alone(browser):
    """Tab reaches every control, and each has a name."""
    browser.press("Home", HOME)
    browser.value("document.activeElement.blur()")
    reached = []
    for _ in range(6):
        browser.press("Tab", TAB)
        reached.append(browser.value("document.activeElement.id || document.activeElement.localName"))
    same([name for name in ("slider", "next", "last", "floor") if name not in reached], [], f"Tab reaches {reached}")
    unnamed = "[...document.querySelectorAll('button, input')].filter(one => !one.getAttribute('aria-label')).length"
    same(browser.value(unnamed), 0, "controls without a name")
    browser.value("document.getElementById('slider').focus()")
    browser.press("ArrowRight", RIGHT)
    same(frame(browser), 1, "the right arrow on the slider itself goes one frame")


CONTRAST = """(() => {
  const light = words => {
    const parts = words.match(/[0-9.]+/g).slice(0, 3).map(part => part / 255);
    const [r, g, b] = parts.map(part => part <= .04045 ? part / 12.92 : ((part + .055) / 1.055) ** 2.4);
    return .2126 * r + .7152 * g + .0722 * b;
  };
  const ground = one => {
    for (; one; one = one.parentElement) {
      const words = getComputedStyle(one).backgroundColor;
      if (words !== 'rgba(0, 0, 0, 0)') return words;
    }
  };
  const ratio = one => {
    const [a, b] = [light(getComputedStyle(one).color), light(ground(one))].sort((a, b) => b - a);
    return (a + .05) / (b + .05);
  };
  for (let cart = 0; cart < 8; cart++) byId('outside').append(chip(cart, false), chip(cart, true));
  const all = [...document.querySelectorAll('h1, h2, h3, p, td, th, dt, dd, li, code, summary, output, .chip')];
  return Math.min(...all.map(ratio));
})()"""


def contrast(browser, page):
    """All words stand out from their ground, in the light and in the dark scheme."""
    for dark in (False, True):
        browser.size(*SIZES[0], dark)
        browser.open(page)
        browser.value("go(6)")
        least = browser.value(CONTRAST)
        same(least >= 4.5, True, f"least contrast {least:.2f}, dark {dark}")


def at_every_size(browser, page):
    for width, height in SIZES:
        browser.size(width, height)
        browser.open(page)
        same(browser.value("document.documentElement.scrollWidth <= innerWidth"), True, f"{width}: no sideways scrolling")
        seen = "(() => { const box = document.getElementById('%s').getBoundingClientRect();" \
            " return box.top >= 0 && box.bottom <= innerHeight && box.width > 30; })()"
        for name in ("slider", "next", "sentence"):
            same(browser.value(seen % name), True, f"{width}: {name} is seen")


def the_floors(browser, floors):
    """What the page puts together of a run is the floor itself."""
    for line in open(floors, encoding="utf-8"):
        frame, cells = line.split(" ", 1)
        found = browser.value(f"JSON.stringify(Object.fromEntries(floorAfter({frame})))")
        same(json.loads(found), json.loads(cells), f"the floor after frame {frame}")


def any_way(browser):
    """What is shown of a frame does not depend on the frames before it."""
    def shown(way):
        browser.value(f"{way}.forEach(go)")
        return browser.value("document.getElementById('floor').innerText + document.getElementById('sentence').innerText")

    first = shown([0, 1500])
    for way in ([2999, 1600, 1499, 1500], [1501, 1500], [1, 2, 3, 700, 1400, 1490, 1495, 1500]):
        same(shown(way), first, f"frame 1500 by way of {way}")


def a_long_run(browser, page):
    browser.size(*SIZES[0])
    browser.open(page)
    last = browser.value("run.frames.length") - 1
    browser.press("End", END)
    same(frame(browser), last, "the last frame of a long run")
    slide_time = browser.value(
        "(() => { const begin = performance.now(); for (let k = 0; k < 20; k++) go(k * 149);"
        " return (performance.now() - begin) / 20; })()"
    )
    same(slide_time < 100, True, f"{slide_time:.1f} ms from frame to frame")
    elements = browser.value("document.querySelectorAll('#shapes *').length")
    same(elements < 20000, True, f"{elements} elements in the picture")
    print(f"a frame of {last + 1} takes {slide_time:.1f} ms, the picture has {elements} elements")


def main():
    page, sentences, long_page, floors, returns = sys.argv[1:]
    path = chromium.find()
    if not path:
        print("skipped, no Chromium is installed")
        sys.exit(SKIPPED)
    with chromium.Browser(path) as browser:
        at_every_size(browser, page)
        for size in SIZES:
            browser.size(*size)
            browser.open(page)
            every_sentence(browser, sentences)
            the_floor(browser)
        browser.size(*SIZES[0])
        browser.open(page)
        the_picture(browser)
        contrast(browser, page)
        browser.size(*SIZES[0])
        browser.open(page)
        by_keyboard_alone(browser)
        a_cart_that_returns(browser, returns)
        a_long_run(browser, long_page)
        the_floors(browser, floors)
        any_way(browser)
        same(browser.mistakes, [], "mistakes in the page")
    print("the page does what it should")


main()
