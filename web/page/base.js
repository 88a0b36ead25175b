'use strict';

const by_id = (id) => document.getElementById(id);
// A page that the browser's own menu has saved has the examples and the picture of then.
by_id('examples').length = 1;
by_id('frames').textContent = '';
// The page as it came, so that it can be saved with another script.
const whole_page = `<!doctype html>\n${document.documentElement.outerHTML}`;
const all_of = (selector) => [...document.querySelectorAll(selector)];
const embedded = (id) => JSON.parse(by_id(id).textContent);

const ESCAPES = {'&': '&amp;', '<': '&lt;', '>': '&gt;', '"': '&quot;'};
const plain = (text) => String(text).replace(/[&<>"]/g, (it) => ESCAPES[it]);
const counted = (count, noun) => `${count} ${noun}${count === 1 ? '' : 's'}`;
const within = (least, value, most) => Math.max(least, Math.min(value, most));
const is_narrow = () => matchMedia('(max-width: 60rem)').matches;

// Shows one line about the script at the top of the page.
function report(text, is_bad = false) {
  by_id('status').textContent = text;
  by_id('status').classList.toggle('bad', is_bad);
}

// The most bytes of a script that the program takes.
const MOST_BYTES = 8388608;
const NAME = 'script.json';
const encode = (text) => new TextEncoder().encode(text);
const decode = (bytes) => new TextDecoder().decode(bytes);
// Returns the text of a script with its byte-order mark, which the program refuses. Throws where it isn't UTF-8.
const decode_script = (bytes) => new TextDecoder('utf-8', {fatal: true, ignoreBOM: true}).decode(bytes);
