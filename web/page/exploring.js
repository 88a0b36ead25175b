// ---- exploring: workers take slices of the runs in turn. The least run that is found counts, whichever worker finds it

const SLICE_MS = 400, FIRST_SLICE = 64, LEAST_SLICE = 16, MOST_SLICE = 8192, MOST_WORKERS = 8;
const FOUND = 3;
// The search that runs, and the script of the last one.
let search = null, searched = null;

const workers = () => within(2, navigator.hardwareConcurrency || 2, MOST_WORKERS);

// The fields that take several words, and what is between those.
const LISTS = [['kinds', '--kind', /[\s,]+/], ['allow', '--allow', /[\s,]+/], ['until', '--until', /\s*;\s*/]];

function words_of_search() {
  const words = ['--seed', by_id('seed').value.trim(), '--threads', '1', '--json'];
  for (const [id, option, between] of LISTS) {
    for (const word of by_id(id).value.trim().split(between).filter((it) => it)) words.push(option, word);
  }
  for (const id of ['unlocked', 'sound-device', 'late']) if (by_id(id).checked) words.push(`--${id}`);
  return words;
}

function add_slice(sum, part, count) {
  sum.next += count;
  sum.runs += part.runs;
  sum.events += part.events;
  for (const {kind, runs} of part.seen) sum.seen[kind] = (sum.seen[kind] || 0) + runs;
}

function show_progress() {
  const {sum, count, callers, start, script} = search, seconds = (performance.now() - start) / 1000;
  const rate = Math.round(sum.runs / Math.max(seconds, 0.001));
  by_id('progress').value = sum.runs;
  const speed = `${rate} runs a second by ${counted(callers.length, 'worker')}`;
  const of = script === text.value ? '' : ', of the script before its last edits';
  by_id('rate').textContent = `${sum.runs} of ${count} runs, ${seconds.toFixed(1)} s, ${speed}${of}`;
}

// Adds the slices that follow those that were added, up to the one that found something.
function collect() {
  const {sum, slices} = search;
  while (slices.has(sum.next)) {
    const {part, count} = slices.get(sum.next);
    slices.delete(sum.next);
    add_slice(sum, part, count);
    if (part.found) {
      end_search(part);
      return;
    }
  }
  show_progress();
  if (sum.next >= search.count) end_search(null);
}

// Has one worker take slices until there are none before the least run that was found.
async function work(worker, mine) {
  let size = FIRST_SLICE;
  while (search === mine && mine.next < Math.min(mine.count, mine.least)) {
    const first = mine.next, count = Math.min(size, mine.count - first);
    mine.next += count;
    const done = await worker.run(['explore', NAME, '--first', `${first}`, '--runs', `${count}`, ...mine.words], mine.files);
    if (!done || search !== mine) return;
    if (done.status !== 0 && done.status !== FOUND) {
      by_id('found').textContent = (done.err || done.out).trim();
      stop_search();
      return;
    }
    const part = JSON.parse(done.out);
    if (part.found) mine.least = Math.min(mine.least, first);
    size = within(LEAST_SLICE, Math.round(count * SLICE_MS / Math.max(done.time, 1)), MOST_SLICE);
    mine.slices.set(first, {part, count});
    collect();
  }
}

// Shows whether a search runs. A button that can't be pressed any more hands the focus to the other one.
function show_searching(is_searching) {
  const [old, next] = (is_searching ? ['start', 'cancel'] : ['cancel', 'start']).map(by_id), has_focus = document.activeElement === old;
  next.disabled = false;
  if (has_focus) next.focus();
  old.disabled = true;
  by_id('progress').hidden = !is_searching;
}

function start_search() {
  const count = within(1, Number(by_id('runs').value) || 1, 1000000);
  const callers = Array.from({length: workers()}, () => new Caller());
  const sum = {next: 0, runs: 0, events: 0, seen: {}, seed: by_id('seed').value.trim()};
  const files = script_files(), words = words_of_search(), script = text.value;
  search = {callers, count, sum, files, words, script, next: 0, least: Infinity, slices: new Map(), start: performance.now()};
  searched = script;
  by_id('found').textContent = '';
  mark_answers();
  Object.assign(by_id('progress'), {max: count, value: 0});
  show_searching(true);
  for (const it of callers) work(it, search);
}

function stop_search() {
  const {callers} = search;
  search = null;
  for (const it of callers) it.stop();
  show_searching(false);
}

function result_html(part, sum) {
  const seen = Object.entries(sum.seen).map(([kind, runs]) => `${kind} ${runs}`).join(', ') || 'nothing';
  const what = part && (part.kind ? `${part.kind} at ${part.moment}` : `it at moment ${part.moment}`);
  const totals = `<p class="faint">runs ${sum.runs}, events ${sum.events}; seen: ${plain(seen)}</p>`;
  if (!part) return `<p><b>nothing found</b>, which proves nothing</p>${totals}`;
  return `<p><b>found ${plain(what)}, in run ${part.run} of seed ${plain(sum.seed)}</b> ${plain(part.text || '')}</p>${totals}`
    + `<p>${part.length} events, shortened to ${part.shrunk} <button type="button" id="use">Put this schedule into the script</button></p>`;
}

// Writes the schedule that was found into the script, as the program does.
async function use_schedule({run}, {words, files, script}) {
  const own = new Caller(), button = by_id('use');
  button.disabled = true;
  const done = await own.run(['explore', NAME, '--first', `${run}`, '--runs', '1', ...words, '--out', 'found.json'], files);
  own.stop();
  button.disabled = false;
  const made = done.files['found.json'];
  if (!made || script !== text.value) {
    report(made ? 'The script has changed since the search: explore it again.' : (done.err || done.out).trim(), true);
    return;
  }
  set_script(decode(made));
  show_pane('findings');
  for (const it of all_of('[role=tab][data-pane=findings]')) it.focus();
}

function end_search(part) {
  const mine = search;
  show_progress();
  stop_search();
  by_id('found').innerHTML = result_html(part, mine.sum);
  if (part) by_id('use').addEventListener('click', () => use_schedule(part, mine));
}
by_id('search').addEventListener('submit', (e) => {
  e.preventDefault();
  if (!program) by_id('found').textContent = absent;
  else if (!search) start_search();
});
by_id('cancel').addEventListener('click', () => {
  if (search) stop_search();
});
