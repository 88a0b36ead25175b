"""Opens the page in Firefox, by its Marionette protocol, and in WebKit, by WebKitWebDriver, where they are installed.

Both take the commands of the WebDriver standard (https://www.w3.org/TR/webdriver2/). What is tested here needs no command
that Chromium alone has: the first visit, edits, searches, links and saved pages.
"""
import json
import os
import shutil
import socket
import subprocess
import tempfile
import time
import urllib.error
import urllib.request

import browser
import in_browser

FIREFOX, WEBKIT, DISPLAY = ("firefox", "firefox-esr"), ("WebKitWebDriver",), ("Xvfb",)
WINDOW = {"width": 1600, "height": 1000}
PATIENCE = 60  # seconds for a browser's start, and for a command
PREFERENCES = {"marionette.port": 0, "browser.shell.checkDefaultBrowser": False, "datareporting.policy.dataSubmissionEnabled": False,
               "app.normandy.enabled": False, "browser.startup.homepage_override.mstone": "ignore", "network.captive-portal-service.enabled": False}
# Evaluates an expression, or statements, as a script of the page, since the page lets nobody call eval. A promise is waited for.
# A script first says what its function is, so that only its own syntax can be at fault, and then calls it.
EVALUATE = """const [text, done] = arguments;
const state = window.in_a_test = window.in_a_test || {heard: []};
const add = (code) => {
  const it = document.createElement('script');
  it.textContent = code;
  document.head.append(it);
  it.remove();
};
const parse = (form) => {
  state.call = null;
  state.is_parsing = true;
  add(`in_a_test.call = async () => ${form}`);
  state.is_parsing = false;
  return state.call;
};
if (parse(`(\n${text}\n)`) || parse(`{${text}}`)) {
  add('in_a_test.answer = in_a_test.call()');
  state.answer.then((it) => done([it]), (why) => done([null, String(why)]));
} else done([null, 'this is no script']);"""
# Errors of the page's script are kept once it has loaded; those before aren't heard. None of the page's own names is met here.
LISTEN = """addEventListener('error', (it) => in_a_test.is_parsing || in_a_test.heard.push(it.message || 'an error'));
addEventListener('unhandledrejection', (it) => in_a_test.heard.push(String(it.reason)));"""
HEARD = "arguments[0](window.in_a_test ? window.in_a_test.heard.splice(0) : [])"

# Scripts that throw, each of which a check must report; in Chromium also one in a frame as the timeline's.
THROWN = {"a handler": "by_id('status').onclick = () => { throw new Error('thrown'); }; by_id('status').click()",
          "a timer": "setTimeout(() => { throw new Error('thrown'); })", "a promise": "Promise.reject(new Error('thrown')), 0"}
IN_FRAME = """const it = document.createElement('iframe'), script = "<script>setTimeout(() => { throw new Error('thrown'); })</" + "script>";
it.setAttribute('sandbox', 'allow-scripts');
it.src = URL.createObjectURL(new Blob([script], {type: 'text/html'}));
by_id('frames').append(it)"""
THROWN_IN_CHROMIUM = {**THROWN, "a frame": IN_FRAME}


def installed(names):
    """Returns the path of the first of these programs that is installed, or None."""
    return next(filter(None, map(shutil.which, names)), None)


def patiently(look):
    """Returns the first answer that isn't None, and raises PageFault where none comes in time."""
    until = time.monotonic() + PATIENCE
    while time.monotonic() < until:
        found = look()
        if found is not None:
            return found
        time.sleep(0.1)
    raise browser.PageFault("the browser doesn't answer")


class Tab:
    """A tab that is driven by commands of WebDriver. A kind of browser starts itself, and sends them."""

    def __init__(self):
        self.room = tempfile.mkdtemp(prefix="browser")
        self.children = []

    def __enter__(self):
        return self

    def __exit__(self, *_):
        for child in reversed(self.children):
            browser.end(child)
        shutil.rmtree(self.room, ignore_errors=True)

    def start(self, *words, **env):
        env = {**os.environ, "HOME": self.room, **env}
        self.children.append(subprocess.Popen(words, start_new_session=True, env=env, **browser.QUIET))

    def open(self, path, fragment=""):
        """Opens a file. Raises what the page before has thrown."""
        self.check()
        self.go("about:blank")
        self.go(f"file://{path}{fragment}")
        self.js(LISTEN)

    def js(self, text):
        value, *why = self.run(EVALUATE, [text])
        if why:
            raise browser.PageFault(why[0])
        return value

    def check(self):
        """Raises the first error since the last check."""
        heard = self.run(HEARD, [])
        if heard:
            raise browser.PageFault(heard[0])


class Firefox(Tab):
    """Firefox, whose messages are `LENGTH:JSON` over a port."""

    def __init__(self, path):
        super().__init__()
        with open(f"{self.room}/user.js", "w", encoding="utf-8") as file:
            file.writelines(f"user_pref({json.dumps(name)}, {json.dumps(value)});\n" for name, value in PREFERENCES.items())
        self.start(path, "--headless", "--no-remote", "--marionette", "--profile", self.room)
        self.socket, self.rest, self.last = socket.create_connection(("127.0.0.1", patiently(self.port)), PATIENCE), b"", 0
        self.receive()
        self.call("WebDriver:NewSession", {})
        self.call("WebDriver:SetWindowRect", WINDOW)

    def port(self):
        try:
            with open(f"{self.room}/MarionetteActivePort", encoding="utf-8") as file:
                return int(file.read() or 0) or None
        except FileNotFoundError:
            return None

    def more(self):
        some = self.socket.recv(1 << 20)
        if not some:
            raise browser.PageFault("the browser ended")
        self.rest += some

    def receive(self):
        while b":" not in self.rest:
            self.more()
        count, _, self.rest = self.rest.partition(b":")
        while len(self.rest) < int(count):
            self.more()
        text, self.rest = self.rest[:int(count)], self.rest[int(count):]
        return json.loads(text)

    def call(self, name, params):
        self.last += 1
        text = json.dumps([0, self.last, name, params]).encode()
        self.socket.sendall(str(len(text)).encode() + b":" + text)
        _, _, error, result = self.receive()
        if error:
            raise browser.PageFault(f"{name}: {error['message']}")
        return result

    def go(self, url):
        self.call("WebDriver:Navigate", {"url": url})

    def run(self, script, words):
        return self.call("WebDriver:ExecuteAsyncScript", {"script": script, "args": words})["value"]


class WebKit(Tab):
    """WebKit, by WebKitWebDriver, on a display that nobody sees."""

    def __init__(self, path):
        super().__init__()
        display, port = self.display(), self.free_port()
        self.home = f"http://127.0.0.1:{port}/session"
        self.start(path, f"--port={port}", DISPLAY=display, WEBKIT_DISABLE_SANDBOX_THIS_IS_DANGEROUS="1")
        self.home += "/" + patiently(self.session)
        self.call("/window/rect", WINDOW)

    def display(self):
        number, sent = os.pipe()
        words = [installed(DISPLAY), "-displayfd", str(sent), "-nolisten", "tcp", "-screen", "0", "1600x900x24"]
        self.children.append(subprocess.Popen(words, pass_fds=(sent,), start_new_session=True, **browser.QUIET))
        os.close(sent)
        with os.fdopen(number) as file:
            return f":{file.readline().strip()}"

    @staticmethod
    def free_port():
        with socket.create_server(("127.0.0.1", 0)) as found:
            return found.getsockname()[1]

    def session(self):
        try:
            return self.post("", {"capabilities": {}})["sessionId"]
        except (urllib.error.URLError, ConnectionError):
            return None

    def post(self, path, params):
        request = urllib.request.Request(self.home + path, json.dumps(params).encode(), {"Content-Type": "application/json"})
        with urllib.request.urlopen(request, timeout=PATIENCE) as answer:
            return json.load(answer)["value"]

    def call(self, path, params):
        try:
            return self.post(path, params)
        except urllib.error.HTTPError as why:
            raise browser.PageFault(f"{path}: {why.read().decode()}") from why

    def go(self, url):
        self.call("/url", {"url": url})

    def run(self, script, words):
        return self.call("/execute/async", {"script": script, "args": words})


def is_heard(tab):
    """Whether a check reports an error, now or a while later."""
    until = time.monotonic() + PATIENCE
    while time.monotonic() < until:
        try:
            tab.js("0")
            tab.check()
        except browser.PageFault:
            return True
        time.sleep(0.05)
    return False


def test_hearing(page, thrown):
    """Has a page throw errors, which the checks of the tests must report."""
    for where, script in thrown.items():
        page.open()
        try:
            page.js(script)
            is_reported = is_heard(page.tab)
        except browser.PageFault:
            is_reported = True
        page.check(f"an error in {where} is reported", is_reported)


def test_page(path, room, sums):
    """Runs the tests that need no protocol of Chromium's in each browser that is installed, and returns the names of the others."""
    missing = []
    for kind, names in ((Firefox, FIREFOX), (WebKit, WEBKIT)):
        program = installed(names)
        if program is None or kind is WebKit and installed(DISPLAY) is None:
            missing.append(kind.__name__)
            continue
        try:
            with kind(program) as tab:
                page = in_browser.Page(tab, path, sums)
                test_hearing(page, THROWN)
                for test in (in_browser.test_first_visit, in_browser.test_edits, in_browser.test_explore,
                             lambda it: in_browser.test_share(it, room), in_browser.test_bad_links):
                    test(page)
                    tab.check()
        except browser.PageFault as fault:
            sums.check(f"the page runs in {kind.__name__}", False, str(fault)[:300])
    return missing
