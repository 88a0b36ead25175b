// ---- files, links and saved pages

const base64_of = (bytes) => btoa(Array.from(bytes, (it) => String.fromCharCode(it)).join(''));
const to_letters = (bytes) => base64_of(bytes).replace(/\+/g, '-').replace(/\//g, '_').replace(/=+$/, '');
const from_letters = (letters) => from_base64(letters.replace(/-/g, '+').replace(/_/g, '/'));
// Says something of a link, and shows one that nobody has yet.
function share(words, link = '') {
  by_id('shared').textContent = words;
  Object.assign(by_id('address'), {value: link, hidden: !link});
}

// The text that nobody loses: what the page started with, or what was last opened, saved, or put into a link.
let safe = null;
function keep_safe(script = text.value) {
  safe = script;
}
const is_unsaved = () => safe !== null && text.value !== safe && !stories.some(({script}) => script === text.value);
addEventListener('beforeunload', (e) => {
  if (!is_unsaved()) return;
  e.preventDefault();
  e.returnValue = true;
});

// The longest link that is made: Firefox refuses addresses of some 1,000,000 characters. The most lines of its script: a text of
// very many stops a browser.
const MOST_LINK = 900000, MOST_LINES = 100000;

async function fragment_of(script) {
  return `#s=${to_letters(await piped(encode(script), new CompressionStream('deflate-raw'), MOST_BYTES))}`;
}

// Returns the script of the address, or null where it has none, or one that can't be read.
async function linked_script() {
  const found = location.hash.match(/^#s(?:=|%3D)(.*)$/i);
  if (!found) return null;
  try {
    const bytes = await piped(from_letters(found[1]), new DecompressionStream('deflate-raw'), MOST_BYTES);
    const script = decode_script(bytes);
    if (starts_of(script).length > MOST_LINES) throw new RangeError(`more than ${MOST_LINES} lines`);
    return script;
  } catch (error) {
    share(error instanceof RangeError ? `The link's script has ${error.message}.` : 'The link has no script that can be read.');
    by_id('share').open = true;
    return null;
  }
}

// Puts a link into the address, and into the clipboard where that is allowed. A page from a disk names the hosted copy.
async function make_link() {
  const script = text.value, fragment = await fragment_of(script), {home} = document.body.dataset;
  const link = (home || location.href.replace(/#.*/, '')) + fragment;
  const here = !home && location.protocol === 'file:' ? '. It opens this file, which others may not have' : '';
  if (encode(script).length > MOST_BYTES || link.length > MOST_LINK) {
    share('The script is too long for a link: save the page.');
    return;
  }
  history.replaceState(null, '', fragment);
  keep_safe(script);
  try {
    await navigator.clipboard.writeText(link);
    share(`${counted(link.length, 'character')}, copied${here}`);
  } catch (_) {
    share(`${counted(link.length, 'character')}, not copied${here}`, link);
    by_id('address').select();
  }
}

function save(name, content, type) {
  const link = document.createElement('a');
  link.href = URL.createObjectURL(new Blob([content], {type}));
  link.download = name;
  link.click();
  setTimeout(() => URL.revokeObjectURL(link.href), 10000);
}

// Returns this page with another script to start with.
function page_with(script) {
  const data = JSON.stringify(script).replace(/</g, '\\u003c');
  return whole_page.replace(/(<script type="application\/json" id="first_script">)[^]*?(<\/script>)/, (_, head, tail) => head + data + tail);
}

async function open_file(file) {
  if (!file) return;
  try {
    if (file.size > MOST_BYTES) throw new RangeError(`${file.size} bytes, but a script has at most ${MOST_BYTES}`);
    set_script(decode_script(await file.arrayBuffer()));
    keep_safe();
  } catch (error) {
    report(`${file.name}: ${error instanceof TypeError ? 'it isn\'t UTF-8' : error.message}`, true);
  }
}
by_id('open').addEventListener('click', () => by_id('file').click());
by_id('file').addEventListener('change', (e) => {
  open_file(e.target.files[0]);
  e.target.value = '';
});
by_id('link').addEventListener('click', () => make_link().catch((error) => share(`There is no link: ${error.message}. Save the page.`)));
by_id('save').addEventListener('click', () => {
  save(NAME, text.value, 'application/json');
  keep_safe();
});
by_id('save_page').addEventListener('click', () => {
  save('uringwalk.html', page_with(text.value), 'text/html');
  keep_safe();
});
addEventListener('hashchange', async () => {
  const linked = await linked_script();
  if (linked === null) return;
  if (linked !== text.value) set_script(linked);
  keep_safe();
});
