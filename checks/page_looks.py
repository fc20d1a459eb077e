#!/usr/bin/python3
"""Shows how the page of a run looks, and how fast it is, in chromium and firefox-esr.

usage: page_looks.py pictures FOLDER   pictures of pages in many states, and what is printed of them, to be looked at
       page_looks.py readme            docs/page.png, the picture of the README
       page_looks.py figures PROGRAM [ARGUMENT ...]   how long a page is made, opened and used, and how large it is
       page_looks.py figures PAGE.html                how long this page is opened and used

What is needed is said in docs/PAGE.md; where it is missing, that is said.
"""
import os
import shutil
import subprocess
import sys
import tempfile
import time

from browsers import WIDE, browsers, strokes_of

TOP = os.path.dirname(os.path.dirname(os.path.realpath(__file__)))
VIEW = os.environ.get("MMIXVIEW", f"{TOP}/.built/mmixview")
NARROW = 390, 844
MOST_BYTES = 100_000
# each with what is pressed
PROGRAMS = (["sort.mms", "discovery"], "End Left Left"), (["fibonacci.mms"], "End Left Left Left Left Left Left"), \
    (["coroutines.mms"], "End Left Left Left"), (["spill.mms"], "End Left Left Left Left"), (["refused.mms"], "")
# which programs are shown how: by width and height, colours, the keys after those of the program, and a script
STATES = {
    "light": (WIDE, "light", "", ""),
    "dark": (WIDE, "dark", "", ""),
    "narrow": (NARROW, "light", "", ""),
    "narrow-dark-state": (NARROW, "dark", "", "document.getElementById('state').scrollIntoView()"),
    "wide-all": ((1500, 1000), "light", "", "document.getElementById('all').click()"),
    "focus": (WIDE, "light", "Tab Tab Tab", ""),
    "ring": (WIDE, "dark", "", "document.getElementById('ring').open = true;"
             "document.getElementById('ring').scrollIntoView()"),
}


def page_of(words, room):
    """The file of a page of an example."""
    path = f"{room}/{words[0]}.html"
    with open(path, "wb") as file:
        subprocess.run([VIEW, "page", *words], cwd=f"{TOP}/examples", stdout=file, stderr=subprocess.DEVNULL, check=False)
    return path


def press(browser, words):
    for actions in strokes_of(words):
        browser.act(actions)


def show(browser, path, keys, state):
    size, scheme, further, script = state
    browser.resize(*size)
    browser.set_scheme(scheme)
    browser.open("file://" + path)
    press(browser, keys)
    press(browser, further)
    if script:
        browser.run(script)


def take_pictures(folder):
    os.makedirs(folder, exist_ok=True)
    with tempfile.TemporaryDirectory() as room:
        for name, kind in browsers():
            browser = kind()
            for words, keys in PROGRAMS:
                path = page_of(words, room)
                for state in STATES:
                    show(browser, path, keys, STATES[state])
                    with open(f"{folder}/{words[0]}-{state}-{name}.png", "wb") as file:
                        file.write(browser.picture())
                show(browser, path, keys, STATES["dark"])
                with open(f"{folder}/{words[0]}-{name}.pdf", "wb") as file:
                    file.write(browser.printed())
            browser.close()


def take_readme_picture():
    with tempfile.TemporaryDirectory() as room:
        for _, kind in browsers():
            browser = kind()
            path = page_of(["sort.mms", "discovery"], room)
            show(browser, path + "#93", "Right", ((1120, 660), "light", "", ""))
            picture = browser.picture()
            browser.close()
            if len(picture) > MOST_BYTES:
                sys.exit(f"the picture has {len(picture)} bytes, and may have {MOST_BYTES}")
            with open(f"{TOP}/docs/page.png", "wb") as file:
                file.write(picture)
            return


# the middle and the longest of the times, in milliseconds, that goTo takes from step to step
TIMES = """
const page = window.wrappedJSObject ?? window;
const steps = arguments[0]; const times = [];
for (const step of steps) {
  const from = performance.now(); page.goTo(step); document.body.offsetHeight; times.push(performance.now() - from);
}
times.sort((a, b) => a - b);
return [times[times.length >> 1], times.at(-1)];
"""
OPENED = "const [it] = performance.getEntriesByType('navigation'); return it.loadEventEnd - it.startTime"


def figures_in(browser, path):
    browser.open("file://" + path)
    opened = browser.run(OPENED)
    steps = int(browser.run("return document.getElementById('slider').max"))
    jumps = browser.run(TIMES, [steps * k * 7 % (steps + 1) if k % 2 else 0 for k in range(1, 40)])
    ends = browser.run(TIMES, [0, steps, 0, steps, 0, steps])
    keys = browser.run(TIMES, list(range(steps // 2, min(steps, steps // 2 + 300))))
    return (f"{steps:,} steps opened in {opened:.0f} ms; middle and longest time of a jump {jumps[0]:.0f} and {jumps[1]:.0f} ms, "
            f"from end to end {ends[0]:.0f} and {ends[1]:.0f} ms, of a step {keys[0]:.1f} and {keys[1]:.1f} ms")


def measure_page(path):
    """How long a page is opened and used in each browser."""
    for name, kind in browsers():
        browser = kind()
        try:
            print(f"  {name}: {figures_in(browser, path)}")
        finally:
            browser.close()


def measure(words):
    with tempfile.TemporaryDirectory() as room:
        path = f"{room}/page.html"
        with open(path, "wb") as file:
            began = time.monotonic()
            done = subprocess.run([VIEW, "page", *words], stdout=file, stderr=subprocess.DEVNULL, check=False)
            made = time.monotonic() - began
        print(f"{' '.join(words)}: made in {made:.2f} s with status {done.returncode}, {os.path.getsize(path):,} bytes")
        measure_page(path)


def main():
    words = sys.argv[1:]
    if words[:1] == ["figures"] and words[-1].endswith(".html"):
        return measure_page(os.path.abspath(words[1]))
    if not shutil.which(VIEW):
        sys.exit(f"{VIEW} is not there")
    if words[:1] == ["pictures"] and len(words) == 2:
        take_pictures(words[1])
    elif words == ["readme"]:
        take_readme_picture()
    elif words[:1] == ["figures"] and words[1:]:
        measure(words[1:])
    else:
        sys.exit(__doc__.strip())


if __name__ == "__main__":
    main()
