"""The page of capnp_show in a browser without a window: what it reads, what it draws, where the arrows lie, and how it
uses the window."""
import os
import re
import shutil
import subprocess

from drawing import page_of
from page import wrongs_of
from runs import count, leave_out

# tells of each link whether its arrow runs from the right of its cell to the left of the cell that it points to
LOOK = """<script>
let arrows = 0, elsewhere = 0;
const isClose = (one, other) => Math.abs(one - other) <= 3;
for (const section of document.querySelectorAll("section")) {
  for (const link of section.querySelectorAll("td a")) {
    const drawing = section.querySelector(".drawing").getBoundingClientRect();
    const from = link.parentElement.getBoundingClientRect();
    const to = document.getElementById(link.hash.slice(1)).getBoundingClientRect();
    const path = link.querySelector("path").getAttribute("d");
    const [, left, top] = path.match(/^M([0-9]+) ([0-9]+)/).map(Number);
    const end = Number(path.match(/H([0-9]+)m/)[1]);
    const bottom = Number([...path.matchAll(/V([0-9]+)/g)].pop()?.[1] ?? top);
    arrows += 1;
    if (!isClose(from.right - drawing.left, left) || !isClose((from.top + from.bottom) / 2 - drawing.top, top)
        || !isClose(to.left - drawing.left, end) || !isClose((to.top + to.bottom) / 2 - drawing.top, bottom)) {
      elsewhere += 1;
    }
  }
}
let beside = 0, below = 0;
for (const objects of document.querySelectorAll(".objects:has(li)")) {
  const drawing = objects.parentElement.querySelector(".drawing").getBoundingClientRect();
  const list = objects.getBoundingClientRect();
  beside += list.left >= drawing.right && list.right > 0.9 * innerWidth ? 1 : 0;
  below += list.top >= drawing.bottom && drawing.right <= innerWidth ? 1 : 0;
}
const overflows = document.documentElement.scrollWidth > innerWidth;
document.body.innerHTML = `${arrows} arrows, ${elsewhere} of them elsewhere; lists: ${beside} beside, ${below} below; ${overflows}`;
</script>
"""


class Browser:
    """A browser, with a folder of its own."""

    def __init__(self, program):
        profile = os.path.abspath("browser")
        self.words = [program, "--headless", "--no-sandbox", "--disable-gpu", f"--user-data-dir={profile}"]

    def open(self, name, text, *args, size="1280,800"):
        """Opens a page in a window of a given size, and returns what the browser writes."""
        with open(name, "w", encoding="utf-8") as file:
            file.write(text)
        address = "file://" + os.path.abspath(name)
        words = [*self.words, f"--window-size={size}", *args, address]
        result = subprocess.run(words, capture_output=True, timeout=120)
        return result.stdout.decode()


def try_browser(text, inputs):
    """Opens a page of inputs."""
    program = shutil.which("chromium") or shutil.which("chromium-browser")
    if program is None:
        leave_out("the page in a browser", "chromium is not installed")
        return
    browser = Browser(program)
    wrongs = wrongs_of(browser.open("page.html", text, "--dump-dom"), page_of(inputs, {}))
    # a message of no objects has a list that isn't seen
    arrows, lists = text.count("<a href="), len(re.findall(r'<ol class="objects"[^>]*>\s*<li', text))
    # the lists of objects stand beside the drawings in a wide window, and below them in a narrow one
    for size, where in (("1280,800", f"{lists} beside, 0 below"), ("500,800", f"0 beside, {lists} below")):
        looked = browser.open("looked.html", text.replace("</body>", f"{LOOK}</body>"), "--dump-dom", size=size)
        wanted = f"{arrows} arrows, 0 of them elsewhere; lists: {where}; false"
        if wanted not in looked:
            wrongs.append(f"in a window of {size}: {looked[-300:]}\nwanted:\n{wanted}")
    picture = os.path.abspath("page.png")
    browser.open("page.html", text, f"--screenshot={picture}")
    size = os.path.getsize(picture) if os.path.exists(picture) else 0
    if size <= 5000:
        wrongs.append(f"its picture has {size} bytes")
    count("page: in a browser", wrongs)
