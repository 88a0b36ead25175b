"""Tests in Chromium how the page is used: walking, replacing the script, exploring, long runs, panes, and keys alone."""
import json
import os
import re
import subprocess
import time

HERE = os.path.dirname(os.path.realpath(__file__))
TOP = os.path.dirname(os.path.dirname(HERE))
ROUNDS, PART = 1334, 2000
PATIENCE = 60  # seconds that a file may take
CONTROL, SHIFT = 2, 8

# Texts, and what the items of their schedules are.
SCHEDULES = (
    ('{"schedule": [["step", 0], ["issue", 1]], "objects": [{"name": "schedule"}, [1]]}', ['["step", 0]', '["issue", 1]']),
    ('{"a": ["schedule", {"schedule": [[1]]}], "schedule" \n: [[2], ["]", "\\\\\\""]]}', ["[2]", '["]", "\\\\\\""]']),
    ('{"x": "schedule", "y": [[1]]}', []),
    ('{"schedule": [["step", 0], ["st', []),
    ('{"schedule": []}', []),
    ('{"schedule": [[1]], "\\u0073chedule": [[2]]}', ["[2]"]),
    ('{"\\x": 1, "schedule": [[1]]}', ["[1]"]),
)
# Searches: the fields of the form, and the same as words of `explore`.
SEARCHES = (
    ({"runs": 150, "seed": "7", "kinds": "too-late"}, ["--kind", "too-late"]),
    ({"runs": 200, "seed": "5", "kinds": "canceled, failed"}, ["--kind", "canceled", "--kind", "failed"]),
    ({"runs": 120, "seed": "3", "until": "sq.head = 2"}, ["--until", "sq.head = 2"]),
    ({"runs": 120, "seed": "3", "until": " cq.tail = 1 ;cq.head = 1; "}, ["--until", "cq.tail = 1", "--until", "cq.head = 1"]),
    ({"runs": 150, "seed": "7", "allow": "severed, not-durable"}, ["--allow", "severed", "--allow", "not-durable"]),
    ({"runs": 150, "seed": "9", "unlocked": True}, ["--unlocked"]),
    ({"runs": 150, "seed": "9", "sound-device": True, "kinds": "short"}, ["--sound-device", "--kind", "short"]),
    ({"runs": 150, "seed": "9", "late": True}, ["--late"]),
    ({"runs": 20, "seed": " 18446744073709551615 "}, []),
)


def replies(page):
    return page.text("#replies")


def control(page, key, more=0):
    held = {"key": key, "modifiers": CONTROL + more, "windowsVirtualKeyCode": ord(key.upper())}
    page.tab.call("Input.dispatchKeyEvent", type="rawKeyDown", **held)
    page.tab.call("Input.dispatchKeyEvent", type="keyUp", **held)
    page.tab.check()


def choose_example(page, name):
    page.js(f"by_id('examples').value = '{name}'; by_id('examples').dispatchEvent(new Event('change'))")


def test_commands(page):
    """Quick commands run in turn, and neither a check nor an edit swallows one."""
    page.open()
    page.wait("timeline.moment === 18", "the page is at the fault")
    page.js("for (let k = 0; k < 3; k += 1) document.querySelector(\"[data-line='back 1']\").click()")
    page.wait("timeline.moment === 15", "three quick steps back are three")
    page.check("each is answered", [f"at {at} of 22" in replies(page) for at in (17, 16, 15)] == [True] * 3, replies(page))
    page.js("by_id('replies').textContent = ''; ask('on 1'); Promise.resolve().then(check_script)")
    page.wait("by_id('replies').textContent === '> on 1\\nat 16 of 22\\n'", "a check doesn't end a command")
    page.js("by_id('replies').textContent = ''; ask('on 1'); Promise.resolve().then(() => { text.value += ' '; })")
    page.wait("by_id('replies').textContent.endsWith('an edit ended this command\\n')", "an edit ends one, which says so")
    page.js("ask('on 1')")
    page.wait("by_id('replies').textContent === '> on 1\\nat 17 of 22\\n'", "a new text has a new session")


def test_session(page):
    """Break, watch and unwatch hold until the script changes, also after a jump of the timeline."""
    page.open()
    for line, reply in (("goto 0", "at 0 of 22"), ("watch sq.tail", "watching 1"), ("unwatch", "watching 0"), ("break sq.tail = 5", "breaks 1"), ("cont", "met at 10")):
        page.js(f"ask('{line}')")
        page.wait(f"by_id('replies').textContent.includes('> {line}\\n{reply}')", f"{line} is answered")
    page.js("go_to_moment(1), ask('cont')")
    page.wait("by_id('replies').textContent.split('> cont').length === 3", "a jump is followed by a command")
    page.check("the break holds after the jump", replies(page).endswith("met at 10\n"), replies(page))
    page.js("ask('where')")
    page.wait("by_id('replies').textContent.endsWith('> where\\nat 10 of 22\\n')", "the session is where the page is")


def test_schedules(page):
    page.open()
    for text, wanted in SCHEDULES:
        found = page.js(f"((it) => spans_of_list(it, 'schedule').map(([from, to]) => it.slice(from, to)))({json.dumps(text)})")
        page.check(f"the schedule of {text}", found == wanted, found)
    long = json.dumps({"schedule": [["step", 0]] * 6000, "objects": [{"name": "schedule"}]})
    page.check("a long schedule has each of its events", page.js(f"spans_of_list({json.dumps(long)}, 'schedule').length") == 6000)


def test_replacing(page):
    """A script that replaces another one can be taken back, and doesn't come over an edit."""
    page.open()
    edited = page.js("text.value").replace("upload", "edited")
    page.set_text(edited)
    choose_example(page, "batched_nops")
    page.wait("/0 faults/.test(by_id('status').textContent)", "an example replaces the script")
    page.click("#before")
    page.wait("/2 faults/.test(by_id('status').textContent)", "the script before comes back")
    page.check("with its edits", page.js("text.value") == edited)
    choose_example(page, "batched_nops")
    page.js("text.focus()")
    control(page, "z")
    page.check("the key for undo brings it back too", page.js("text.value") == edited)
    page.check("the button goes when nothing is left", page.js("by_id('before').hidden"))
    choose_example(page, "batched_nops")
    page.set_text("{}")
    page.click("#before")
    page.click("#before")
    page.check("edits of the new one are kept too", page.js("text.value") == "{}")
    page.open()
    page.js("show_pane('explore'); by_id('runs').value = 100; by_id('start').click()")
    page.wait("document.querySelector('#use') !== null", "a search finds something")
    page.set_text(edited)
    page.click("#use")
    page.wait("/has changed since the search/.test(by_id('status').textContent)", "its schedule isn't put over an edit")
    page.check("the edit is there", page.js("text.value") == edited)


def test_redo(page):
    """A schedule that was found, put into the script and taken back, can be put there again, by the keys for redo."""
    page.open()
    script = page.js("text.value")
    page.js("show_pane('explore'); by_id('runs').value = 100; by_id('start').click()")
    page.wait("document.querySelector('#use') !== null", "a search finds something")
    page.click("#use")
    page.wait("JSON.parse(text.value).schedule.length === 17", "its schedule is put into the script")
    found = page.js("text.value")
    choose_example(page, "batched_nops")
    page.js("text.focus()")
    for key, more, wanted in (("z", 0, found), ("z", 0, script), ("y", 0, found), ("z", 0, script), ("Z", SHIFT, found), ("y", 0, None)):
        control(page, key, more)
        is_so = page.js("text.value") == wanted if wanted else page.js("text.value === stories.find((it) => it.name === 'batched_nops').script")
        page.check(f"Control and {key} bring back the script before or after", is_so, page.js("text.value.slice(-99)"))
    control(page, "z")
    page.wait("/faults/.test(by_id('status').textContent)", "the script that came back is checked")
    page.tab.type(" ")
    page.check("a key is typed", page.js("text.value") == " " + found)
    control(page, "z")
    page.check("it is undone", page.js("text.value") == found, page.js("text.value.slice(0, 9)"))
    control(page, "y")
    page.check("what redo does after an edit is the browser's", page.js("text.value") == " " + found, page.js("text.value.slice(0, 9)"))


def test_search_and_edits(page):
    page.open()
    choose_example(page, "batched_nops")
    page.js("by_id('runs').value = 1000000; by_id('start').click()")
    page.wait("search && search.sum.runs > 0", "a search runs")
    page.check("it is of this script", "edits" not in page.text("#rate"))
    page.js("text.value += ' '")
    page.wait("/of the script before its last edits/.test(by_id('rate').textContent)", "a search of the script before says so")
    page.js("set_script(stories[2].script)")
    page.check("another script ends it", page.js("search === null && by_id('rate').textContent === ''"))
    page.js("by_id('runs').value = ''; by_id('start').click()")
    page.check("without a number of runs none is made", page.js("search === null && by_id('found').textContent === ''"))


def test_old_answers(page):
    """What was shown of another script goes, or is marked."""
    page.open()
    page.js("ask('where'), by_id('runs').value = 100, by_id('start').click()")
    page.wait("document.querySelector('#use') !== null && /at 18 of 22/.test(by_id('replies').textContent)", "there are answers")
    older = "['replies', 'found'].map((id) => by_id(id).classList.contains('older')).join()"
    page.check("they have no mark", page.js(older) == "false,false" and not page.js("by_id('visit').hidden"))
    script = page.js("text.value")
    page.set_text(script + " ")
    page.check("after an edit they are marked", page.js(older) == "true,true", page.js(older))
    page.check("and the first visit is hidden", page.js("by_id('visit').hidden"))
    page.set_text(script)
    page.check("they are this script's again", page.js(older) == "false,false", page.js(older))
    ids = "['findings', 'problems', 'replies', 'found', 'hint']"
    shown = page.js(f"(set_script(stories[1].script), [by_id('status').textContent, by_id('stale').hidden, {ids}.map((id) => by_id(id).textContent).join('')])")
    page.check("another script has none of them", shown == ["checking", False, ""], shown)
    page.wait("by_id('stale').hidden && findings.length > 0", "it gets its own")


def test_files(page):
    """Files that are opened: marks of their bytes, others than UTF-8, line ends, and one that is gone."""
    page.open()
    script = page.js("text.value")
    for bytes_, name, why in (("34, 255, 34", "latin.json", "latin.json: it isn't UTF-8"), (None, "gone.json", "gone.json: no file")):
        file = f"new File([new Uint8Array([{bytes_}])], '{name}')" if bytes_ else f"{{name: '{name}', size: 1, arrayBuffer: () => Promise.reject(new Error('no file'))}}"
        page.js(f"open_file({file})")
        page.check(f"{name} is refused", page.status() == why and page.js("text.value") == script, page.status())
    page.js("open_file(new File([new Uint8Array([0xef, 0xbb, 0xbf, 0x7b, 0x7d])], 'mark.json'))")
    page.wait("text.value === '\\ufeff{}' && editor.problems.length > 0", "a byte-order mark is refused as the program does")
    page.js("open_file(new File([stories[1].script.replace(/\\n/g, '\\r\\n')], 'lines.json'))")
    page.wait("text.value === stories[1].script && /CR LF/.test(by_id('story').textContent)", "other line ends are said")
    page.js("text.focus()")
    control(page, "z")
    page.check("the key for undo brings the script before back", page.js("text.value") == "\ufeff{}", page.js("text.value"))


def downloaded(page, path):
    """Waits for a file that the browser saves, and returns its text."""
    until = time.monotonic() + PATIENCE
    while not os.path.exists(path) and time.monotonic() < until:
        time.sleep(0.05)
    page.check(f"{os.path.basename(path)} is saved", os.path.exists(path))
    if not os.path.exists(path):
        return None
    with open(path, encoding="utf-8", newline="") as file:
        return file.read()


def test_saving(page, room):
    """The buttons of Share write the script, and the page with it; Open reads a file."""
    folder = f"{room}/saved"
    page.tab.call("Page.setDownloadBehavior", behavior="allow", downloadPath=folder)
    page.open()
    script = page.js("text.value").replace("upload", "\u00fcpload </script>")
    page.set_text(script)
    page.click("#save")
    page.check("the file has the script", downloaded(page, f"{folder}/script.json") == script)
    page.click("#save_page")
    downloaded(page, f"{folder}/uringwalk.html")
    page.tab.open(f"{folder}/uringwalk.html")
    page.wait("document.body.dataset.opened !== undefined", "the page that was saved opens")
    page.check("it has the script", page.js("text.value") == script, page.js("text.value.slice(0, 99)"))
    page.open()
    page.tab.call("DOM.getDocument")
    field = page.tab.call("Runtime.evaluate", expression="by_id('file')")["result"]["objectId"]
    for _ in range(2):
        page.js("set_script('{}')")
        page.tab.call("DOM.setFileInputFiles", files=[f"{folder}/script.json"], objectId=field)
        page.wait(f"text.value === {json.dumps(script)}", "a file that is chosen is opened, also once more")
    page.js("globalThis.clicked = 0, by_id('file').click = () => { clicked += 1; }, by_id('open').click()")
    page.check("Open asks for a file", page.js("clicked") == 1)


def test_painting(page):
    """Only the lines in view are painted, and a scroll paints others."""
    page.open()
    page.set_text("\n".join(f"line {number}" for number in range(1, 5001)))
    seen = page.js("Math.ceil(text.clientHeight / editor.height)")
    for top, first in ((0, 1), (2000, 2001), (4990, None)):
        page.js(f"text.scrollTop = {top} * editor.height")
        lines = "paint.textContent.split('\\n')"
        if first:
            page.wait(f"{lines}[0] === 'line {first}'", f"the lines from {first} on are painted")
            page.check("and numbered", page.js("gutter.textContent.split('\\n')[0]") == str(first), page.text("#gutter")[:9])
        else:
            page.wait(f"{lines}.includes('line 5000')", "the last line is painted")
        count = page.js(f"{lines}.length")
        page.check("no more than those in view", seen - 2 <= count <= seen + 2, f"{count} lines, {seen} in view")
    page.set_text("x" * 300)
    page.js("text.scrollLeft = 70")
    page.wait("/^translate\\(-70px/.test(paint.style.transform)", "a scroll moves the text sideways")


def test_workers(page):
    """A search runs in several workers."""
    page.open()
    choose_example(page, "batched_nops")
    page.js("(() => { const {run} = Caller.prototype; globalThis.ran = new Set(); Caller.prototype.run = function(...all) { if (all[0][0] === 'explore') ran.add(this.worker); return run.apply(this, all); }; })()")
    page.js("by_id('runs').value = 1000000, by_id('start').click()")
    page.wait("search && search.sum.runs > 0", "a search runs")
    wanted = page.js("Math.max(2, Math.min(8, navigator.hardwareConcurrency))")
    page.check("each worker has a slice", page.js("ran.size") == wanted and f"by {wanted} workers" in page.text("#rate"), page.text("#rate"))
    page.click("#cancel")
    page.js("Object.defineProperty(navigator, 'hardwareConcurrency', {value: 5, configurable: true}), by_id('start').click()")
    page.check("there are as many as processors", page.js("search.callers.length") == 5)
    page.click("#cancel")
    page.js("Object.defineProperty(navigator, 'hardwareConcurrency', {value: 64}), by_id('start').click()")
    page.check("but at most eight", page.js("search.callers.length") == 8)
    page.click("#cancel")


def test_hiding(page):
    """The first steps can be hidden, and the text gets their room and the focus."""
    page.open()
    height = page.js("by_id('editor').offsetHeight")
    page.click("#leave")
    page.check("they are hidden", page.js("by_id('visit').offsetHeight === 0 && by_id('visit').hidden"))
    page.check("the editor gets their room", page.js("by_id('editor').offsetHeight") > height)
    page.check("the focus is in the text", page.focus() == "text", page.focus())


def test_leaving(page, room):
    """The browser asks before edits are lost: those that were neither saved nor put into a link."""
    page.tab.call("Page.setDownloadBehavior", behavior="allow", downloadPath=room)
    for name, change, wanted in (("no edit", "0", False), ("an edit", "0", True), ("an edit that was undone", "(text.value = text.value.slice(1))", False),
                                 ("a script that was saved", "by_id('save').click()", False), ("a page that was saved", "by_id('save_page').click()", False),
                                 ("a link", "make_link()", False), ("an example", "set_script(stories[1].script)", False),
                                 ("a file", "open_file(new File(['{}'], 'a.json'))", False), ("an edit after a link", "make_link().then(() => { text.value += ' '; })", True)):
        page.open()
        page.js("text.focus(), text.setSelectionRange(0, 0)")
        page.tab.key("ArrowLeft" if name == "no edit" else " ")
        page.js(change)
        asked = page.js("(() => { const it = new Event('beforeunload', {cancelable: true}); on_leaving(it); return it.defaultPrevented; })()")
        page.check(f"after {name} leaving {'asks' if wanted else 'does not ask'}", asked == wanted, asked)


def test_examples(page):
    """The menu of examples by keys."""
    page.open()
    script = page.js("text.value")
    page.js("by_id('examples').focus()")
    page.press("ArrowDown", "ArrowDown")
    page.check("arrow keys only choose", page.js("text.value") == script and page.js("by_id('examples').value === stories[1].name"))
    page.press("Enter")
    page.check("Enter opens the example", page.js("text.value === stories[1].script && by_id('story').textContent === stories[1].look"))
    page.press("ArrowDown", "ArrowDown", "ArrowDown", "Tab")
    page.check("so does leaving the menu", page.js("text.value === stories[2].script"), page.js("by_id('examples').value"))


def test_saved_by_browser(page, room):
    """A page that the browser's own menu saves, with what it then shows."""
    page.open()
    page.js("by_id('share').open = true, show_searching(true)")
    with open(f"{room}/by_browser.html", "w", encoding="utf-8") as file:
        file.write(page.js("document.documentElement.outerHTML"))
    page.open(path=file.name)
    page.check("no search runs in it", page.js("!by_id('start').disabled && by_id('progress').hidden"))
    page.check("it has each example and one picture", page.js("by_id('examples').length - stories.length") == 1 and page.js("document.querySelectorAll('iframe').length") == 1)


def test_typing_early(page):
    """What is typed while the program loads stays."""
    late = "const compile = WebAssembly.compile; WebAssembly.compile = async (it) => { await new Promise((go) => { globalThis.go = go; }); return compile(it); }"
    added = page.tab.call("Page.addScriptToEvaluateOnNewDocument", source=late)
    page.tab.open(page.path)
    page.wait("globalThis.go !== undefined", "the program is still loading")
    page.js("text.focus(); text.setSelectionRange(0, 0)")
    page.tab.type(" \n")
    page.js("ask('where')")
    page.wait("/the program is loading/.test(by_id('replies').textContent)", "a command waits for the program")
    page.js("go()")
    page.wait("/2 faults/.test(by_id('status').textContent)", "the page opens")
    page.check("what was typed is there", page.js("text.value.startsWith(' \\n{')"))
    page.tab.call("Page.removeScriptToEvaluateOnNewDocument", identifier=added["identifier"])


def explored(made, script, words):
    """Returns what the program under node reports of a search."""
    program = ["node", f"{TOP}/tools/web/prog.js", "explore", script, "--threads", "1", "--json"]
    ran = subprocess.run([*program, *words], env={**os.environ, "MODULE": made}, stdin=subprocess.DEVNULL, capture_output=True, text=True, check=False)
    return json.loads(ran.stdout)


def result(whole):
    """Returns what the page shows of such a report."""
    seen = ", ".join(f"{it['kind']} {it['runs']}" for it in sorted(whole["seen"], key=lambda it: it["kind"])) or "nothing"
    totals = f"runs {whole['runs']}, events {whole['events']}; seen: {seen}"
    if not whole["found"]:
        return ["nothing found, which proves nothing", totals]
    what = f"{whole['kind']} at {whole['moment']}" if whole["kind"] else f"it at moment {whole['moment']}"
    found = f"found {what}, in run {whole['run']} of seed {whole['seed']} {whole['text'] or ''}".strip()
    return [found, totals, f"{whole['length']} events, shortened to {whole['shrunk']}"]


def test_searches(page, made):
    """Searches by several workers against the same under node."""
    page.open()
    for name, searches in (("late_cancel", SEARCHES[:1]), ("merged_signals", SEARCHES[3:4]), ("severed_link", SEARCHES)):
        choose_example(page, name)
        script = f"{TOP}/examples/{name}/script.json"
        for form, words in searches:
            fields = {"kinds": "", "allow": "", "until": "", "unlocked": False, "sound-device": False, "late": False, **form}
            page.js(f"for (const [id, it] of Object.entries({json.dumps(fields)})) by_id(id)[it === true || it === false ? 'checked' : 'value'] = it")
            page.js("by_id('start').click()")
            page.wait("search === null && by_id('found').textContent !== ''", "a search ends")
            wanted = result(explored(made, script, ["--runs", str(form["runs"]), "--seed", form["seed"].strip(), *words]))
            shown = page.js("[...document.querySelectorAll('#found p')].map((it) => it.firstChild.nodeType === 3 ? it.firstChild.data.trim() : it.textContent.trim())")
            shown[1] = sorted_seen(shown[1])
            page.check(f"explore {name} {' '.join(words)} is as under node", shown == wanted, f"{shown} not {wanted}")


def test_sentences(page):
    """What the sentences of the examples say that Explore finds, with the fields that they name."""
    page.open()
    for name, wanted in (("merged_signals", "found waits"), ("unlinked_fsync", "found fsync-early"), ("unchained_log", "found it at moment 16")):
        choose_example(page, name)
        said = page.text("#story")
        until = re.search(r'Until "(.*)" finds', said)
        fields = [until[1] if until else "", "sound device" in said]
        page.js(f"([by_id('until').value, by_id('sound-device').checked] = {json.dumps(fields)}, by_id('runs').value = 2000, by_id('start').click())")
        page.wait("search === null && by_id('found').textContent !== ''", "a search ends")
        page.check(f"Explore finds what is said of {name}", page.text("#found").startswith(wanted), page.text("#found"))
    page.js("by_id('kinds').value = 'short', by_id('allow').value = 'stuck', by_id('until').value = '', by_id('start').click()")
    page.wait("/cannot be used with/.test(by_id('found').textContent)", "Allow isn't taken with Kinds")


def sorted_seen(totals):
    head, seen = totals.split("seen: ")
    return f"{head}seen: {', '.join(sorted(seen.split(', ')))}"


def long_script(rounds):
    """Returns a script whose two threads submit and reap a NOP again and again, one after the other: six events each."""
    program = [["put", 0, {"op": 0}], ["push", 0], ["enter", 1, 0, 0], ["reap"]] * (rounds // 2)
    steps = [(["step", 2 * number // rounds], ["issue", number], ["finish", number]) for number in range(rounds)]
    schedule = [event for step, issue, finish in steps for event in (step, step, step, issue, finish, step)]
    return json.dumps({"entries": 4, "threads": [program, program], "schedule": schedule}).replace("], [", "],\n[")


def drawn(page):
    return page.js("[timeline.from, timeline.to, timeline.moment, document.querySelectorAll('iframe').length]")


def test_long_run(page):
    """A run of 8,000 events is drawn in parts, and a jump out of the part draws another one."""
    page.open()
    asked = "(() => { const run = caller.run.bind(caller); globalThis.asked = []; caller.run = (...all) => { asked.push(all[0].join(' ')); return run(...all); }; })()"
    page.js(asked)
    page.set_text(page.js("text.value + ' '"))
    page.check("a short run is drawn whole", page.js("asked[asked.length - 1]") == "timeline script.json run.html")
    page.js(f"void set_script({json.dumps(long_script(ROUNDS))})")
    end = 6 * ROUNDS
    page.wait(f"timeline.to === {end} && timeline.coming === null", "a long run is drawn")
    page.check("the part at its end, by one frame", drawn(page) == [end - PART, end, end, 1], drawn(page))
    page.check("the program draws no more", page.js("asked[asked.length - 1]") == f"timeline script.json run.html --from {end - PART} --to {end}")
    page.js("ask('goto 3000')")
    page.wait("timeline.from === 2000 && timeline.coming === null", "a jump draws the part around its moment")
    page.check("one frame has it", drawn(page) == [2000, 4000, 3000, 1], drawn(page))
    page.check("the event is marked", page.text("#paint .event_here") == '["step", 0]' and page.js("editor.moment") == 3000)
    page.js("go_to_moment(10), go_to_moment(11), go_to_moment(12)")
    page.wait("timeline.from === 0 && timeline.moment === 12 && timeline.coming === null && document.querySelectorAll('iframe').length === 1",
              "quick jumps end in the last one's part")
    page.check("one frame has that", drawn(page) == [0, PART, 12, 1], drawn(page))
    page.js("check_script().then(() => go_to_moment(5))")
    page.wait("timeline.coming === null", "a picture is drawn again")
    page.check("a moment that was chosen meanwhile stays", drawn(page) == [0, PART, 5, 1], drawn(page))


def test_quick_jumps(page):
    """Of quick jumps among parts of a long run the last one counts, also while a picture loads, and for a walk."""
    page.open()
    page.js(f"void set_script({json.dumps(long_script(ROUNDS))})")
    end = 6 * ROUNDS
    page.wait(f"timeline.to === {end} && timeline.coming === null", "a long run is drawn")
    quiet = "timeline.coming === null && !timeline.drawing && document.querySelectorAll('iframe').length === 1"
    # The second jump comes at once, while the first one's picture loads, or is back in the picture that is there.
    for first, last, between in ((10, 4000, ""), (10, 5000, "while (!timeline.coming) await new Promise((go) => setTimeout(go));"), (10, 5500, ""), (10, 3000, "")):
        page.js(f"(async () => {{ go_to_moment({first}); {between} go_to_moment({last}); }})()")
        page.wait(f"{quiet} && timeline.from <= {last} && {last} <= timeline.to", f"a jump to {first} and then {last} draws the last one's part")
        page.check("it ends at its moment", drawn(page)[2:] == [last, 1] and page.js("editor.moment") == last, drawn(page))
        page.js("by_id('replies').textContent = '', ask('where')")
        page.wait("by_id('replies').textContent !== ''", "where is answered")
        page.check("a walk is there too", replies(page) == f"> where\nat {last} of {end}\n", replies(page))
    page.js("ask('goto 7000'), ask('goto 20')")
    page.wait(f"{quiet} && timeline.from === 0", "two quick commands end in the last one's part")
    page.check("at its moment", drawn(page) == [0, PART, 20, 1], drawn(page))


def test_first_fault(page):
    """A long run opens at its first fault, also where a note comes before, far away."""
    page.open()
    script = json.loads(long_script(ROUNDS))
    end, [first, second] = 6 * ROUNDS, script["threads"]
    script["threads"] = [[["put", 0, {"op": 0, "ioprio": 1}], *first[1:]], [*second, ["enter", 0, 0, 1024]]]
    script["schedule"].append(["step", 1])
    page.js(f"void set_script({json.dumps(json.dumps(script))})")
    page.wait("findings.length > 0 && timeline.moment !== null && timeline.coming === null", "it is drawn")
    levels = page.js("[findings[0].fault, findings.find((it) => it.fault).moment]")
    page.check("a note is first, a fault far away", levels == [False, end] and page.js("findings[0].moment") < PART, levels)
    page.check("it opens at the fault", drawn(page)[:3] == [end + 1 - PART, end + 1, end], drawn(page))


def test_focus_in_frame(page):
    """A picture that replaces the one with the focus has the focus, and keys."""
    page.open()
    page.js("timeline.frame.focus(), globalThis.old = timeline.frame")
    page.set_text(page.js("text.value + ' '"))
    page.wait("timeline.frame !== old && timeline.coming === null", "another picture is drawn")
    page.check("it has the focus", page.js("document.activeElement === timeline.frame"), page.js("document.activeElement.tagName"))
    page.press("ArrowLeft")
    page.wait("timeline.moment === 17", "it takes keys")
    page.js("text.focus(), globalThis.old = timeline.frame, check_script()")
    page.wait("timeline.frame !== old && timeline.coming === null", "another one is drawn")
    page.check("the focus stays in the script", page.focus() == "text", page.focus())


def test_tabs(page):
    chosen = "[...document.querySelectorAll('#tabs [aria-selected=true]')].map((it) => it.dataset.pane).join()"
    page.open()
    page.js("show_pane('walk'); show_pane('script')")
    page.check("the dock keeps its tab", page.js(chosen) == "walk" and page.js("by_id('walk_pane').classList.contains('chosen')"))
    page.check("one tab of a list is a stop", page.js("[...document.querySelectorAll('[role=tablist]')].map((it) => it.querySelectorAll('[tabindex=\"0\"]').length).join()") == "1,1")
    page.check("each tab names its pane", page.js("[...document.querySelectorAll('[role=tab]')].every((it) => by_id(it.getAttribute('aria-controls')))"))
    page.check("panes of the dock are panels", page.js("document.querySelectorAll('#dock [role=tabpanel]').length") == 3)
    for name in ("share", "about"):
        page.js(f"by_id('{name}').open = true; by_id('{name}').querySelector('summary').focus()")
        page.press("Escape")
        page.check(f"Escape closes {name}", page.js(f"!by_id('{name}').open && document.activeElement === by_id('{name}').firstElementChild"))
    page.js("text.focus(); text.setSelectionRange(0, 0)")
    page.press("Escape")
    page.tab.key("x")
    page.press("Tab")
    page.check("Tab leaves only right after Escape", page.js("document.activeElement === text && text.value.startsWith('x  {')"), page.js("text.value.slice(0, 9)"))


def test_narrow(page):
    """At 420 pixels one pane is seen at a time."""
    page.tab.resize(420, 800)
    page.open()
    for pane in ("script", "picture", "findings", "walk", "explore"):
        page.click(f"#panes [data-pane={pane}]")
        seen = page.js("[...document.querySelectorAll('#script_pane, #picture_pane, #findings_pane, #walk_pane, #explore_pane')]"
                       ".filter((it) => it.getClientRects().length && it.offsetWidth > 300 && it.offsetHeight > 200).map((it) => it.id).join()")
        page.check(f"the pane {pane} is seen alone", seen == f"{pane}_pane", seen)
    page.click("#panes [data-pane=findings]")
    page.click("#findings button")
    page.check("a finding leads to the picture", page.js("document.body.dataset.pane") == "picture")
    page.tab.resize(1600, 900)
    page.check("in a wide window the dock has a tab", page.js("document.querySelectorAll('#tabs [aria-selected=true]').length") == 1)


def tab_to(page, what):
    """Presses Tab until an element has the focus that an expression finds."""
    for _ in range(60):
        if page.js(f"document.activeElement === {what}"):
            return True
        if page.focus() == "text":
            page.press("Escape")
        page.press("Tab")
    page.check(f"Tab reaches {what}", False, page.focus())
    return False


def test_keys_alone(page):
    """The first visit, the walk and a search without a mouse."""
    page.open()
    page.js("document.activeElement.blur()")
    for step, what in (("see", "timeline.moment === 18"), ("watch", "/unit 0 issued/.test(by_id('replies').textContent)"),
                       ("on", "/unit 0 ended 5/.test(by_id('replies').textContent)")):
        tab_to(page, f"document.querySelector('[data-step={step}]')")
        page.press("Enter")
        page.wait(what, f"the step {step} of the first visit is done by a key")
    tab_to(page, "by_id('line')")
    page.tab.type("goto 4")
    page.press("Enter")
    page.wait("/at 4 of 22\\n$/.test(by_id('replies').textContent)", "a command is typed")
    tab_to(page, "document.querySelector(\"[data-line='back 1']\")")
    page.press("Enter")
    page.wait("timeline.moment === 3", "a button of the walk is pressed by a key")
    page.js("document.activeElement.blur()")
    tab_to(page, "document.querySelector('#tabs [data-pane=walk]')")
    page.press("ArrowRight")
    tab_to(page, "by_id('runs')")
    page.press("Enter")
    page.wait("document.querySelector('#use') !== null", "a search is started by a key")
    tab_to(page, "document.querySelector('#use')")
    page.press("Enter")
    page.wait("JSON.parse(text.value).schedule.length === 17", "its schedule is taken by a key")
    page.check("the focus is on the tab of its findings", page.js("document.activeElement.dataset.pane") == "findings", page.focus())
    choose_example(page, "batched_nops")
    page.js("by_id('runs').value = 1000000; show_pane('explore'); by_id('start').focus()")
    page.press("Enter")
    page.check("a search that runs has the focus on Cancel", page.focus() == "cancel", page.focus())
    page.press("Enter")
    page.check("one that was ended, on Explore", page.focus() == "start" and page.js("search === null"), page.focus())


# Puts the picture of the run into a frame without a size, which this page may look into.
INNER = """(async () => { const done = await caller.run(['timeline', NAME, 'run.html'], script_files()), it = document.createElement('iframe');
  it.style.display = 'none';
  it.srcdoc = decode(done.files['run.html']);
  document.body.append(it);
  await new Promise((go) => { it.onload = go; });
  globalThis.inner = it; })()"""


def test_frame(page):
    """The timeline's page in a frame: it hides what this page shows, doesn't take the focus, and is drawn once it has a size."""
    page.open()
    page.js("text.focus()")
    page.js(INNER)
    page.check("what this page shows is hidden there", page.js("['name', 'findings'].every((id) => inner.contentDocument.getElementById(id).style.display === 'none')"))
    page.check("the focus stays here", page.js("inner.contentDocument.activeElement === inner.contentDocument.body && document.activeElement === text"))
    before = page.js("inner.contentDocument.querySelectorAll('path').length")
    page.js("inner.style.display = ''")
    page.wait(f"inner.contentDocument.querySelectorAll('path').length > {before}", "it is drawn when it gets a size")


def test_places(page):
    """Where problems and findings are in the script."""
    page.open()
    page.js("text.value = '{\"\u00e9\u00e9\": x}'; read_text(); show_problems('script.json:1:9: no value')")
    page.check("columns count bytes", page.js("editor.problems[0].offset") == 6, page.js("editor.problems"))
    page.open()
    page.js("text.setSelectionRange(0, 0), text.style.height = '60px'")
    page.wait("text.clientHeight < 100", "the editor is low")
    page.click("#findings .fault")
    page.wait("Math.abs(text.scrollTop - (10 * editor.height - text.clientHeight / 3)) < 2", "a finding shows the line of its entry")
    page.js("text.style.height = '', text.focus()")
    for flag, name in ((2, "IOSQE_IO_DRAIN"), (4, "IOSQE_IO_LINK"), (8, "IOSQE_IO_HARDLINK"), (16, "IOSQE_ASYNC")):
        page.js(f"text.value = '{{\"op\": 22, \"flags\": {flag}}}'; text.setSelectionRange(3, 3); show_names()")
        page.check(f"flag {flag} has its name", page.text("#names") == f"op 22 is READ, {name}", page.text("#names"))


# How far the text is painted beyond the part of the field that its scrollbars leave, in pixels, across and down.
BEYOND = """(() => { const field = text.getBoundingClientRect(), all = document.createRange();
  all.selectNodeContents(paint);
  let {right, bottom} = all.getBoundingClientRect();
  for (let at = paint.parentElement; at; at = at.parentElement) {
    const box = at.getBoundingClientRect();
    if (getComputedStyle(at).overflow === 'hidden') [right, bottom] = [Math.min(right, box.right), Math.min(bottom, box.bottom)];
  }
  return [right - field.left - text.clientWidth, bottom - field.top - text.clientHeight].map(Math.round); })()"""


def test_scrollbars(page):
    """The text isn't painted over the scrollbars of its field."""
    page.open()
    page.set_text("\n".join(["x" * 300] * 100))
    bars = page.js("[text.offsetWidth - text.clientWidth, text.offsetHeight - text.clientHeight]")
    page.check("the field has scrollbars", min(bars) > 5, bars)
    page.check("the text ends before them", page.js(BEYOND) == [0, 0], page.js(BEYOND))
    page.js("text.scrollTop = 300, text.scrollLeft = 300")
    page.wait("/^translate\\(-300px/.test(paint.style.transform)", "the text scrolls")
    page.check("also where it is scrolled", page.js(BEYOND) == [0, 0], page.js(BEYOND))


def test_choices(page):
    """A completion is chosen by the arrow keys, and by the mouse."""
    page.open()
    for choose, wanted in (("ArrowDown", 1), ("ArrowUp", -1), (None, 1)):
        page.set_text('{"op": }')
        page.js("text.focus(); text.setSelectionRange(7, 7)")
        page.tab.type("e")
        page.wait("!by_id('choices').hidden", "opcodes are offered")
        number = page.js(f"completion.found[({wanted} + completion.found.length) % completion.found.length][1]")
        page.check("there are several", page.js("completion.found.length") > 2)
        if choose:
            page.press(choose, "Enter")
        else:
            page.tab.mouse("mousePressed", *page.tab.middle_of("#choice1"), button="left", buttons=1, clickCount=1)
        page.check(f"{choose or 'the mouse'} chooses another", page.js("text.value") == f'{{"op": {number}}}', page.js("text.value"))


OFFERED = '{"op": , "ud": 7}\n\n\n'


def offer(page, before=7, letters="nop", text=OFFERED):
    page.set_text(text)
    page.js(f"text.focus(); text.setSelectionRange({before}, {before})")
    for letter in letters:
        page.tab.type(letter)
    page.wait("!by_id('choices').hidden", "opcodes are offered")


def test_left_choices(page):
    """Choices write nothing once the cursor or the focus has left them."""
    page.open()
    wanted = OFFERED.replace(", ", "nop, ", 1).replace("\n", "")
    for keys in (("End",), ("ArrowRight",) * 3, ("ArrowLeft",), ("Home",)):
        offer(page)
        page.press(*keys, "Enter")
        page.check(f"{keys[0]} and Enter take none", page.js("text.value.replace(/\\n/g, '')") == wanted, page.js("text.value"))
    offer(page)
    page.js("text.setSelectionRange(text.value.length, text.value.length)")
    page.press("Enter")
    page.check("nor does Enter at another place", page.js("text.value.replace(/\\n/g, '')") == wanted, page.js("text.value"))
    offer(page)
    page.tab.key("Tab", shift=True)
    page.check("Shift and Tab leave the text", page.js("by_id('choices').hidden && document.activeElement !== text"))
    page.check("as it is", page.js("text.value.replace(/\\n/g, '')") == wanted)
    offer(page)
    choose_example(page, "batched_nops")
    page.check("another script has none", page.js("by_id('choices').hidden && completion.found.length === 0"))
    for text, at, letters, whole in (('{"op": rad}', 8, "e", '{"op": N}'), ('{"op": "rad"}', 9, "e", '{"op": N}'), ('{"op": "rad}', 9, "e", '{"op": N}')):
        offer(page, at, letters, text)
        number = page.js("completion.found[0][1]")
        page.press("Enter")
        page.check(f"a choice replaces the whole word of {text}", page.js("text.value") == whole.replace("N", str(number)), page.js("text.value"))
