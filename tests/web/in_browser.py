"""Tests the page in headless Chromium."""
import json
import re
import time

import browser
import hostile
import in_use

WIDE, NARROW = (1600, 900), (420, 800)
LEAST_CONTRAST = 4.5
PATIENCE = 60  # seconds that the page may take for anything, on a machine that does other work

# Returns the texts whose contrast with their background is too low.
CONTRAST = """(() => {
  const numbers = (text) => (text.match(/[\\d.]+/g) || []).map(Number);
  const light = (c) => { const v = c / 255; return v <= 0.03928 ? v / 12.92 : ((v + 0.055) / 1.055) ** 2.4; };
  const luminance = ([r, g, b]) => 0.2126 * light(r) + 0.7152 * light(g) + 0.0722 * light(b);
  const background = (it) => { for (let at = it; at; at = at.parentElement) { const c = numbers(getComputedStyle(at).backgroundColor);
    if (c.length === 3 || c[3] === 1) return c; } return [255, 255, 255]; };
  const found = [];
  for (const it of document.querySelectorAll('body *')) {
    const has_text = [...it.childNodes].some((node) => node.nodeType === 3 && node.textContent.trim());
    const is_field = ['INPUT', 'SELECT'].includes(it.tagName);
    if (!(has_text || is_field) || it.id === 'text' || !it.getClientRects().length || ['SCRIPT', 'STYLE', 'NOSCRIPT'].includes(it.tagName)) continue;
    const one = luminance(numbers(getComputedStyle(it).color)), other = luminance(background(it));
    const ratio = (Math.max(one, other) + 0.05) / (Math.min(one, other) + 0.05);
    if (ratio < LEAST) found.push(`${it.tagName} ${it.id || it.className || it.textContent.slice(0, 20)} ${ratio.toFixed(2)}`);
  }
  return found;
})()""".replace("LEAST", str(LEAST_CONTRAST))

# A module that only traps.
TRAP = "0061736d01000000010a0260027f7e017f60000003020100050301000107110206" "6d656d6f72790200046d61696e00000a05010300000b"


class Page:
    """The page in a browser, and what is checked of it."""

    def __init__(self, tab, path, sums):
        self.tab, self.path, self.sums = tab, path, sums

    def js(self, text):
        return self.tab.js(text)

    def wait(self, what, name):
        """Waits until an expression holds, and counts whether it did."""
        until = time.monotonic() + PATIENCE
        while not self.js(what):
            if time.monotonic() > until:
                self.sums.check(name, False)
                return False
            time.sleep(0.05)
        self.tab.check()
        self.sums.check(name, True)
        return True

    def check(self, name, is_so, more=""):
        self.sums.check(name, is_so, more)

    def open(self, fragment="", path=None):
        self.tab.open(path or self.path, fragment)
        self.wait("document.body.dataset.opened !== undefined", "the page opens")
        self.wait("timeline.frame !== null", "its picture is drawn")

    def status(self):
        return self.js("by_id('status').textContent")

    def set_text(self, text):
        """Puts a text into the editor as an edit, and waits until it is checked."""
        number = self.js(f"(text.value = {json.dumps(text)}, text.dispatchEvent(new Event('input')), edit + 1)")
        self.wait(f"Number(document.body.dataset.checked) >= {number}", "an edit is checked")

    def text(self, selector):
        return self.js(f"document.querySelector({json.dumps(selector)}).textContent")

    def press(self, *keys):
        for key in keys:
            self.tab.key(key)

    def focus(self):
        return self.js("document.activeElement.id || document.activeElement.textContent.slice(0, 20)")

    def click(self, selector):
        self.js(f"document.querySelector({json.dumps(selector)}).click()")


def test_first_visit(page):
    page.open()
    page.check("the first script has two faults and a note", page.status() == "2 faults, 1 note", page.status())
    page.wait("timeline.moment === 18", "the picture opens at the first fault")
    page.check("the event is marked in the script", page.text("#paint .event_here") == '["finish", 2]')
    page.click("[data-step=see]")
    page.click("[data-step=watch]")
    page.wait("/op 22 user 3 unit 0 issued/.test(by_id('replies').textContent)", "the second step shows the READ before its end")
    page.click("[data-step=on]")
    page.wait("/op 22 user 3 unit 0 ended 5/.test(by_id('replies').textContent)", "the third step shows that it got 5 bytes")
    page.wait("timeline.moment === 19", "the timeline follows the walk")
    shown = page.js("by_id('replies').textContent")
    page.check("the walk stops at the change", "change at 18" in shown, shown)


def test_edits(page):
    page.open()
    script = page.js("text.value")
    page.set_text(script.replace('"op": 22', '"op": 300', 1))
    page.check("a problem is counted", page.status() == "1 problem", page.status())
    page.check("its line is marked", page.text("#gutter b") == "9")
    page.check("it is underlined", page.js("document.querySelector('#paint .wrong') !== null"))
    page.check("the old picture is marked", page.js("!by_id('stale').hidden && timeline.frame !== null"))
    page.click("[data-problem]")
    page.check("a click goes to it", page.js("document.activeElement === text && editor.problems[0].offset === text.selectionStart"))
    page.set_text(script)
    page.wait("by_id('stale').hidden", "a new picture replaces the old one")
    page.check("there are no problems any more", page.status() == "2 faults, 1 note", page.status())
    page.set_text('{"entries": 2, "threads": [[["put", 0, {"op": 77}], ["push", 0], ["enter", 1, 0, 0]]], "schedule": []}')
    page.check("a warning is a line of its own", "warning" in page.text("#problems"), page.text("#problems"))
    ended = "(() => { const {worker} = caller; check_script(); check_script(); return worker !== caller.worker && caller.waiting.size; })()"
    page.check("a newer check ends the calls of the older one", page.js(ended) == 1)
    page.set_text("[" * 100)
    page.check("a text that is no script has a problem", page.js("editor.problems.length") >= 1)
    page.set_text('{"a": "' + "x" * 5000 + '",\n"b": 1}')
    colors = "[...document.querySelectorAll('#paint .string')].map((it) => it.textContent).join()"
    page.check("a line of 5,000 columns has no colors, others have", page.js(colors) == '"b"' and not page.js("text.classList.contains('bare')"), page.js(colors)[:99])
    page.check("it is seen", page.js("by_id('paint').textContent.length > 5000"))
    page.set_text('{"a": "' + "x" * 200000 + '"}')
    page.check("a long line isn't painted", page.js("text.classList.contains('bare')"))


def test_underlines(page):
    """Problems are underlined also in the event of the moment, and at the end of the text."""
    wrong, event = ("[...document.querySelectorAll('#paint .%s')].map((it) => it.textContent)" % it for it in ("wrong", "event_here"))
    page.open()
    script = page.js("text.value")
    for change, marked, left in (('["finish", 2x]', ["2x"], ['["finish", ', "]"]), ('[x"finish", 2]', ["x"], ["[", '"finish", 2]'])):
        page.set_text(script.replace('["finish", 2]', change))
        page.check(f"in the event {change} its problem is underlined", page.js(wrong) == marked, page.js(wrong))
        page.check("the rest of the event is marked", page.js(event) == left, page.js(event))
        page.check("the text is as before", page.js("text.value.startsWith(by_id('paint').textContent)"))
    ended = script.rstrip()[:-1]
    for text, marked in ((ended, [" "]), (ended.rstrip(), ["]"]), ("", [" "]), (" \n\n", [" "]), ('{"a"', ['"'])):
        page.set_text(text)
        page.check(f"the end of {text[-9:]!r} is underlined", page.js(wrong) == marked, page.js(wrong))
        line, height = "document.querySelector('#paint .wrong').getBoundingClientRect()", page.js("editor.height")
        page.check("in its line", page.js(f"Math.abs({line}.top - text.getBoundingClientRect().top - {(text.count(chr(10)) + 0.5) * height}) < {height}"))


def test_completion(page):
    page.open()
    page.set_text('{"op": }')
    page.js("text.focus(); text.setSelectionRange(7, 7)")
    for letter in "rea":
        page.tab.type(letter)
    page.wait("!by_id('choices').hidden", "opcodes are offered by name")
    page.press("Enter")
    page.check("one that is chosen becomes its number", page.js("text.value") == '{"op": 22}', page.js("text.value"))
    page.wait("/op 22 is READ/.test(by_id('names').textContent)", "its name is shown")


def test_walk(page):
    page.open()
    page.click("#tabs [data-pane=walk]")
    page.js("by_id('line').focus()")
    for line, reply in (("goto 3", "at 3 of 22"), ("show sq.tail", "0"), ("nonsense", "fault"), ("on 2", "at 5 of 22")):
        page.tab.type(line)
        page.press("Enter")
        page.wait(f"by_id('replies').textContent.split('\\n').slice(-2)[0].startsWith({json.dumps(reply)})", f"{line} is answered")
    page.wait("timeline.moment === 5", "the timeline follows the commands")
    page.press("ArrowUp")
    page.check("an earlier line comes back", page.js("by_id('line').value") == "on 2")
    page.js("take_moment(9)")
    page.click("[data-line='back 1']")
    page.wait("/at 8 of 22\\n$/.test(by_id('replies').textContent)", "the walk begins at the moment of the page")


def test_explore(page):
    page.open()
    page.click("#tabs [data-pane=explore]")
    page.js("by_id('runs').value = 400; by_id('start').click()")
    page.wait("search === null && by_id('found').textContent !== ''", "a search ends")
    page.check("it finds the first run", "found severed" in page.text("#found") and "in run 0 of seed 1" in page.text("#found"), page.text("#found"))
    page.click("#use")
    page.wait("JSON.parse(text.value).schedule.length === 17", "the shortened schedule is put into the script")
    page.js("by_id('examples').value = 'batched_nops'; by_id('examples').dispatchEvent(new Event('change'))")
    page.wait("/0 faults/.test(by_id('status').textContent)", "an example is opened")
    page.check("it says what to look for", "NOPs" in page.text("#story"))
    page.js("by_id('runs').value = 300; by_id('start').click()")
    page.wait("search === null && by_id('found').textContent !== ''", "a search that finds nothing ends")
    page.check("all of its runs are added", "runs 300," in page.text("#found") and "nothing found" in page.text("#found"), page.text("#found"))
    page.js("by_id('runs').value = 1000000; by_id('start').click()")
    page.wait("search && search.sum.runs > 0", "a long search shows how far it is")
    page.click("#cancel")
    page.check("it can be cancelled", page.js("search === null && !by_id('start').disabled"))
    page.js("by_id('kinds').value = 'no-kind'; by_id('start').click()")
    page.wait("/no-kind/.test(by_id('found').textContent)", "an unknown kind is refused")
    page.check("the search has ended", page.js("search === null"))


def test_share(page, room):
    page.open()
    script = page.js("text.value").replace("5]", "5] ").replace("}}", "}}\n") + "  \n"
    script = script.replace('"upload"', '"up_load"')
    page.set_text(script)
    fragment, home = page.js("fragment_of(text.value)"), page.js("document.body.dataset.home")
    page.js("make_link()")
    address = page.js("by_id('address').value")
    page.check("a link leads to the hosted page", page.js("location.hash") == fragment and (", copied" in page.text("#shared") or home and address == home + fragment),
               page.text("#shared")[:200])
    page.open(fragment)
    page.check("a link has the script", page.js("text.value") == script)
    page.open(fragment.replace("=", "%3D", 1))
    page.check("so has one whose = was escaped", page.js("text.value") == script)
    tricky = '{"</script><script>alert(1)</script>": "<!-- \\u2028 $& $1"}'
    saved = page.js(f"page_with({json.dumps(tricky)})")
    for name in ("one", "two"):
        with open(f"{room}/{name}.html", "w", encoding="utf-8") as file:
            file.write(saved)
        page.tab.open(f"{room}/{name}.html")
        page.wait("document.body.dataset.opened !== undefined", "a saved page opens")
        page.check("it starts with its script", page.js("text.value") == tricky, page.js("text.value"))
        saved = page.js("page_with(text.value)")


def test_bad_links(page):
    bomb = page.js("(async () => to_letters(await piped(new Uint8Array(9000000), new CompressionStream('deflate-raw'), 9e6)))()")
    lines = page.js("fragment_of('\\n'.repeat(100000))")
    for fragment, why in (("#s=%%%", "can't"), (lines, "more than 100000 lines"), ("#s=", "no script"),
                          ("#s=AAAA", "no script"), (f"#s={bomb}", "more than 8388608 bytes"),
                          ("#s=" + "A" * 100001, "no script")):
        page.open(fragment)
        said = page.text("#shared")
        page.check(f"the link {fragment[:12]} is refused", "no script" in said or why in said, said)
        page.check("the page's own script is there", '"severed"' in page.js("JSON.stringify(findings.map((it) => it.kind))"))


def test_bad_input(page):
    page.open()
    page.js("set_script(' '.repeat(8388609))")
    page.wait("/at most 8388608/.test(by_id('problems').textContent)", "a script over the limit is refused")
    page.open()
    page.js(f"""{{ const bytes = Uint8Array.from('{TRAP}'.match(/../g), (it) => parseInt(it, 16));
      WebAssembly.compile(bytes).then((it) => {{ caller.worker.postMessage({{program: it}}); check_script(); }}); }}""")
    page.wait("/the program stopped/.test(by_id('status').textContent)", "a trap is reported")
    page.js("check_script()")
    page.wait("/2 faults/.test(by_id('status').textContent)", "the program runs again after it")
    for source, why in (("delete globalThis.DecompressionStream", "This browser lacks DecompressionStream: "),
                        ("WebAssembly.compile = () => Promise.reject(new Error('no wasm'))", "This browser can't run the program: no wasm")):
        added = page.tab.call("Page.addScriptToEvaluateOnNewDocument", source=source)
        page.tab.open(page.path)
        page.wait(f"by_id('status').textContent.startsWith({json.dumps(why)})", "a browser that can't unpack or compile the program gets a sentence")
        page.js("ask('where')")
        page.wait("by_id('replies').textContent !== ''", "a command is answered")
        page.check("with that sentence", page.text("#replies") == f"> where\n{page.status()}\n", page.text("#replies"))
        page.js("by_id('start').click()")
        page.check("so is a search", page.text("#found") == page.status() and page.js("search === null"), page.text("#found"))
        for step in ("see", "watch", "on"):
            page.js(f"by_id('hint').textContent = '', show_pane('walk'), document.querySelector('[data-step={step}]').click()")
            page.check(f"so is the step {step}", page.text("#hint") == page.status() and page.js("by_id('hint').offsetHeight > 0"), page.text("#hint"))
        page.tab.call("Page.removeScriptToEvaluateOnNewDocument", identifier=added["identifier"])


def test_keyboard(page):
    """Reaches everything with the keyboard alone."""
    page.open()
    page.js("document.activeElement.blur()")
    seen = []
    for _ in range(60):
        page.press("Tab")
        seen.append(page.focus())
        if seen[-1] == "text":
            page.press("Escape")
    wanted = ["examples", "open", "Share", "About", "See the bug", "text", "Findings"]
    missing = [name for name in wanted if not any(it == name or str(it).startswith(name) for it in seen)]
    page.check("Tab reaches each part", not missing, missing)
    page.js("document.querySelector('#tabs button').focus()")
    page.press("ArrowRight")
    page.check("an arrow key chooses the next tab", page.js("by_id('walk_pane').classList.contains('chosen')"))
    page.js("text.focus(); text.setSelectionRange(0, 0)")
    page.press("Tab")
    page.check("Tab indents", page.js("text.value.startsWith('  {')"))
    page.set_text("one\n\ntwo\nthree\n")
    page.js("text.focus(); text.setSelectionRange(1, 9)")
    page.press("Tab")
    page.check("it indents each line of a selection", page.js("text.value") == "  one\n\n  two\nthree\n", page.js("text.value"))
    page.check("how a key leaves the text is seen", "Escape" in page.js("by_id('leaving').innerText") and page.js("by_id('leaving').offsetHeight > 0"))


def test_looks(page, room):
    for scheme in ("light", "dark"):
        page.tab.prefer(scheme)
        for width, height in (WIDE, NARROW):
            page.tab.resize(width, height)
            page.open()
            for pane in ("script", "picture", "findings", "walk", "explore"):
                page.js(f"show_pane('{pane}')")
                low = page.js(CONTRAST)
                page.check(f"{scheme}, {width} pixels, {pane}: texts have contrast", not low, low)
            for menu in ("share", "about"):
                page.js(f"show_pane('script'), by_id('{menu}').open = true")
                edges = page.js(f"(({{left, right, bottom}}) => [left, innerWidth - right, innerHeight - bottom])"
                                f"(document.querySelector('#{menu} .menu').getBoundingClientRect())")
                low = page.js(CONTRAST)
                page.check(f"{scheme}, {width} pixels: the menu {menu} is seen whole", not low and min(edges) >= 0, f"{low} {edges}")
                page.js(f"by_id('{menu}').open = false")
            page.check(f"{scheme}, {width} pixels: nothing is cut off sideways", page.js("document.documentElement.scrollWidth <= innerWidth"))
            page.tab.picture(f"{room}/{scheme}_{width}.png")
    page.tab.prefer("light")
    page.tab.resize(*WIDE)


def test_network(page):
    """The page, opened with the network off, asks for nothing."""
    page.tab.call("Network.enable")
    page.tab.call("Network.emulateNetworkConditions", offline=True, latency=0, downloadThroughput=0, uploadThroughput=0)
    page.open()
    asked = page.js("performance.getEntriesByType('resource').map((it) => it.name).filter((it) => !it.startsWith('blob:'))")
    page.check("nothing is loaded", asked == [], asked)


# Keeps what the page does before it is left for the tests to call: Chromium loses navigations that have to ask.
UNASKED = """{ const add = addEventListener; globalThis.addEventListener = (type, call, ...more) => {
  if (type === 'beforeunload') globalThis.on_leaving = call;
  else add.call(window, type, call, ...more); }; }"""


def page_in(tab, path, sums):
    """Returns the page in a tab of Chromium."""
    tab.call("Page.addScriptToEvaluateOnNewDocument", source=UNASKED)
    return Page(tab, path, sums)


def run_tests(page, tests):
    for test in tests:
        try:
            test(page)
        except browser.PageFault as fault:
            page.sums.check("the page's script runs", False, re.sub(r"\s+", " ", str(fault))[:300])


def test_page(path, made, room, sums):
    """Runs all of these on one page."""
    with browser.Browser(*WIDE, has_scrollbars=True) as tab:
        run_tests(page_in(tab, path, sums), [in_use.test_scrollbars])
    with browser.Browser(*WIDE) as tab:
        tests = [test_network, test_first_visit, test_edits, test_underlines, test_completion, test_walk, test_explore, lambda it: test_share(it, room),
                 test_bad_links, test_bad_input, test_keyboard, lambda it: test_looks(it, room),
                 lambda it: hostile.test_failures(it, made, room), hostile.test_fields, hostile.test_fences,
                 lambda it: hostile.test_about(it, made), hostile.test_links,
                 in_use.test_commands, in_use.test_session, in_use.test_schedules, in_use.test_replacing, in_use.test_redo, in_use.test_search_and_edits,
                 in_use.test_typing_early, lambda it: in_use.test_searches(it, made), in_use.test_sentences, in_use.test_long_run, in_use.test_quick_jumps, in_use.test_first_fault, in_use.test_tabs,
                 in_use.test_narrow, in_use.test_keys_alone, in_use.test_frame, in_use.test_focus_in_frame, in_use.test_places, in_use.test_choices,
                 in_use.test_old_answers, in_use.test_files, lambda it: in_use.test_saving(it, room),
                 in_use.test_painting, in_use.test_workers, in_use.test_hiding, lambda it: in_use.test_leaving(it, room), in_use.test_examples, in_use.test_left_choices,
                 lambda it: in_use.test_saved_by_browser(it, room)]
        run_tests(page_in(tab, path, sums), tests)
