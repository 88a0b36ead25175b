"""Tests the page in Chromium on what may harm it: hostile scripts and messages, failures of the program, huge links."""
import base64
import gzip
import hashlib
import json
import os
import re
import subprocess

HERE = os.path.dirname(os.path.realpath(__file__))
# More pages of memory than at the start, with which `check` passes and `explain` doesn't.
FEW_PAGES = 20
IMAGE = "<img src=x onerror=globalThis.hacked=1>"
LIMIT = """const {{with_pages}} = require('{here}/limits.js'), fs = require('fs');
fs.writeFileSync('{out}', with_pages(fs.readFileSync('{module}'), {pages}));"""
# Runs the next calls of a subcommand as if they ended so.
MOCK = """(() => {{ const run = caller.run.bind(caller), {{words, done}} = {data};
  caller.run = (...all) => (all[0][0] === words ? Promise.resolve(done) : run(...all)); }})()"""
# A frame of another origin, which sends the moment 3 to this page and to the timeline.
FOREIGN = """(() => { const it = document.createElement('iframe');
  it.setAttribute('sandbox', 'allow-scripts');
  it.src = URL.createObjectURL(new Blob(["<script>parent.postMessage({moment: 3}, '*'); parent.frames[0].postMessage({moment: 3}, '*');"
    + " parent.postMessage('sent', '*')</" + "script>"], {type: 'text/html'}));
  return new Promise((take) => { addEventListener('message', ({data}) => data === 'sent' && setTimeout(take, 300)); document.body.append(it); });
})()"""

# In a later turn: what DevTools evaluates is free of the policy.
EVALUATE = """new Promise((take) => setTimeout(() => {
  try { take((0, eval)('1')); } catch (error) { take(error.name); } }))"""


def mock(page, words, **done):
    page.js(MOCK.format(data=json.dumps({"words": words, "done": {"out": "", "err": "", "files": {}, **done}})))


def check_failure(page, name, why):
    """Nothing of the script before is shown as if it were the present one's."""
    page.check(f"{name}: the page says why", why in page.status(), page.status())
    shown = page.js("[findings.length, by_id('findings').textContent, by_id('stale').hidden, timeline.coming === null]")
    page.check(f"{name}: no old answer is shown", shown == [0, "The program gave no answer.", False, True], shown)


def test_failures(page, made, room):
    """The program ends in each of its steps otherwise than by an answer."""
    page.open()
    script = page.js("text.value")
    words = LIMIT.format(here=HERE, module=made, out=f"{room}/few.wasm", pages=FEW_PAGES)
    subprocess.run(["node", "-e", words], check=True, stdin=subprocess.DEVNULL)
    with open(f"{room}/few.wasm", "rb") as file:
        few = base64.b64encode(file.read()).decode()
    page.js(f"WebAssembly.compile(from_base64('{few}')).then((it) => {{ program = it; caller.restart(); }})")
    page.set_text(script.replace('"op": 22', '"op": 0', 1))
    check_failure(page, "memory refused", "fault memory")
    page.check("the check passed before", page.js("editor.problems.length") == 0)
    for step in ("check", "explain", "timeline"):
        page.open()
        mock(page, step, status=None, err="the program stopped: unreachable")
        page.set_text(script.replace('"op": 22', '"op": 0', 1))
        check_failure(page, f"a trap in {step}", "the program stopped")
    page.open()
    mock(page, "timeline", status=1, err="fault memory\n", files={"run.html": {}})
    page.set_text(script.replace('"op": 22', '"op": 0', 1))
    check_failure(page, "a picture that isn't drawn", "fault memory")
    page.check("the old picture is marked as such", "older" in page.text("#stale"))
    page.open()
    page.js("check_script().then(() => show_failure({status: 1, err: 'fault memory', out: ''}))")
    check_failure(page, "a picture that was still loading", "fault memory")
    page.js("check_script(), caller.worker.onerror({message: 'no worker'})")
    page.wait("/the program stopped: no worker/.test(by_id('status').textContent)", "a worker that fails is reported")


def test_fields(page):
    """HTML in a script, a command and an option is shown as text."""
    page.open()
    page.set_text(json.dumps({IMAGE: IMAGE}))
    page.check("a hostile script is painted", IMAGE in page.text("#paint"), page.text("#paint"))
    page.check("it has a problem", page.js("editor.problems.length") > 0)
    page.js(f"show_problems('script.json:1:1: {IMAGE}')")
    page.check("a hostile problem is text", IMAGE in page.text("#problems"))
    finding = json.dumps([{"kind": IMAGE, "moment": 1, "fault": True, "text": IMAGE}])
    page.js(f"show_findings({json.dumps(finding)}, JSON.stringify({{runs: [{{results: [{{}}]}}]}}))")
    page.check("a hostile finding is text", page.text("#findings").count(IMAGE) == 2, page.text("#findings"))
    page.open()
    page.js(f"ask('{IMAGE}')")
    page.wait(f"by_id('replies').textContent.includes('> {IMAGE}')", "a hostile command is shown as text")
    result = json.dumps({"kind": IMAGE, "text": IMAGE, "moment": 1, "run": 1, "length": 1, "shrunk": 1})
    page.js(f"by_id('found').innerHTML = result_html({result}, {{runs: 1, events: 1, seed: '{IMAGE}', seen: {{'{IMAGE}': 1}}}})")
    page.check("a hostile result is text", page.text("#found").count(IMAGE) == 4, page.text("#found"))
    page.js("new Promise((take) => setTimeout(take, 100))")
    page.check("none of them makes an element", page.js("document.querySelectorAll('img').length === 0 && !globalThis.hacked"))


def test_fences(page):
    """The policy of the page, the sandbox of the picture, and who may send the moment."""
    page.open()
    broken = page.js("""new Promise((take) => { addEventListener('securitypolicyviolation', (e) => take(e.effectiveDirective));
      fetch('https://example.org/').catch(() => setTimeout(() => take('no policy'), 1000)); })""")
    page.check("the page may connect to nothing", broken == "connect-src", broken)
    page.check("it may not evaluate texts", page.js(EVALUATE) == "EvalError")
    page.check("the picture can't reach the page", page.js("timeline.frame.getAttribute('sandbox') === 'allow-scripts' && timeline.frame.contentDocument === null"))
    page.js("postMessage({moment: 3}, '*')")
    page.js(FOREIGN)
    page.check("another frame's message moves nothing", page.js("timeline.moment") == 18, page.js("timeline.moment"))
    for data in ("null", "{}", "{moment: '4'}", "{moment: 1.5}", "'x'"):
        page.js(f"dispatchEvent(new MessageEvent('message', {{data: {data}, source: timeline.frame.contentWindow}}))")
    page.check("a message without a moment moves nothing", page.js("timeline.moment") == 18)
    page.js("dispatchEvent(new MessageEvent('message', {data: {moment: 4}, source: timeline.frame.contentWindow}))")
    page.check("the picture's own message does", page.js("timeline.moment") == 4)


def test_about(page, made):
    """About names the module that the page has, and how it was compiled."""
    page.open()
    with open(made, "rb") as file:
        module = file.read()
    about, packed = page.text("#about"), page.js("by_id('program').textContent")
    page.check("the page has the module", gzip.decompress(base64.b64decode(packed)) == module)
    page.check("About has its sum", hashlib.sha256(module).hexdigest() in about, about)
    is_proved = "/module-proved/" in made
    page.check("About says whether it was proved", ("This is the proved program" in about) == is_proved and ("without a proof" in about) != is_proved, about)


def test_links(page):
    """Links that are too long, aren't UTF-8, or come while the page is open."""
    page.open()
    page.js("""globalThis.noise = (count) => Array.from({length: count / 40000}, () => { const it = new Uint8Array(30000);
      crypto.getRandomValues(it); return to_letters(it); }).join('')""")
    page.js("text.value = noise(3000000); make_link()")
    page.check("a script that is too long for a link is refused", page.text("#shared") == "The script is too long for a link: save the page.", page.text("#shared"))
    page.check("the address stays", page.js("location.hash") == "")
    page.js("text.value = ' '.repeat(MOST_BYTES + 1); make_link()")
    page.check("so is one that no link can lead to", "too long" in page.text("#shared"), page.text("#shared"))
    page.js("by_id('share').open = true, text.value = noise(200000), navigator.clipboard.writeText = () => Promise.reject(new Error('not allowed')), make_link()")
    page.wait("/not copied/.test(by_id('shared').textContent)", "a link that can't be copied is shown")
    shown = page.js("[by_id('address').value.endsWith(location.hash), location.hash.length > 200000, document.activeElement.id]")
    page.check("it is in a field, to be copied from there", shown == [True, True, "address"], shown)
    page.check("the page doesn't grow", page.js("document.documentElement.scrollHeight <= innerHeight && document.querySelector('#share .menu').offsetHeight < 300"))
    page.js("globalThis.fragment_of = () => Promise.reject(new Error('no reason')), by_id('link').click()")
    page.wait("/There is no link: no reason/.test(by_id('shared').textContent)", "a link that can't be made is reported")
    page.check("the one before goes", page.js("by_id('address').hidden"))
    page.open()
    wrong = page.js("(async () => to_letters(await piped(new Uint8Array([34, 255, 34]), new CompressionStream('deflate-raw'), 100)))()")
    page.open(f"#s={wrong}")
    page.check("a link whose script isn't UTF-8 is refused", "no script" in page.text("#shared"), page.text("#shared"))
    fragment = page.js("fragment_of(stories[1].script)")
    page.js(f"location.hash = '{fragment}'")
    page.wait("text.value === stories[1].script", "a link that comes while the page is open is followed")
    page.wait("Number(document.body.dataset.checked) === edit", "its script is checked")
    page.js("""globalThis.many = new File(['x'.repeat(MOST_BYTES + 1)], 'many.json'), open_file(many)""")
    page.check("a file that is too long is refused", re.match(r"many\.json: \d+ bytes, but", page.status()), page.status())
