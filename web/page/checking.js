// ---- what happens after each edit: the script is checked, and where it runs, explained and drawn

// How long after a key the script is checked, in milliseconds.
const QUIET = 200;
let caller = null, edit = 0, quiet_timer = null;
const script_files = () => ({[NAME]: encode(text.value)});

// Runs the program for an edit. Returns null where a newer edit has come.
async function run_for(mine, words) {
  const done = await caller.run(words, script_files());
  if (!done || mine !== edit) return null;
  if (done.status === null) show_failure(done);
  return done.status === null ? null : done;
}

// Shows why there is no answer. Nothing of an earlier one stays as if it were this script's.
function show_failure(done, why = 'The program gave no answer.') {
  findings = [];
  if (done.status === null) show_problems('');
  by_id('findings').innerHTML = `<li class="faint">${why}</li>`;
  by_id('hint').textContent = '';
  mark_old_picture();
  report((done.err || done.out).trim() || `the program ended with status ${done.status}`, true);
}

function show_refusal(done) {
  const {length} = editor.problems;
  show_failure(done, length ? 'The script has problems.' : undefined);
  if (length) report(counted(length, 'problem'), true);
}

// Draws the run, or the part of it around the moment. Of several that are drawn, the last one counts.
async function draw_run(mine = edit) {
  const part = part_of(editor.events.length), words = ['timeline', NAME, 'run.html'], drawing = {};
  const ends = part.to - part.from < editor.events.length ? ['--from', `${part.from}`, '--to', `${part.to}`] : [];
  timeline.drawing = drawing;
  const done = await run_for(mine, [...words, ...ends]);
  if (timeline.drawing !== drawing) return;
  timeline.drawing = null;
  if (!done) return;
  if (done.status !== 0 || !done.files['run.html']) show_failure(done);
  else if (has_moment(part)) load_picture(done.files['run.html'], part);
  else await draw_run(mine);
}

// Shows the findings of the run, and returns whether the program listed them.
async function explain_run(mine) {
  const answers = [];
  for (const form of ['--json', '--sarif']) {
    const done = await run_for(mine, ['explain', NAME, form]);
    if (!done) return false;
    if (done.status !== 0 && done.status !== FOUND) {
      show_failure(done);
      return false;
    }
    answers.push(done);
  }
  show_findings(answers[0].out, answers[1].out);
  by_id('hint').textContent = answers[0].err ? 'The schedule is empty: Explore makes some.' : '';
  return true;
}

// Checks the script, and shows what is new. Calls of an older edit are dropped.
async function check_script() {
  if (!caller) return;
  edit += 1;
  const mine = edit;
  caller.drop();
  const done = await run_for(mine, ['check', NAME]);
  if (done) show_problems(done.out);
  if (done && done.status !== 0) show_refusal(done);
  else if (done && await explain_run(mine)) await draw_run(mine);
  document.body.dataset.checked = mine;
}

function take_edit() {
  read_text();
  complete();
  draw_text();
  clearTimeout(quiet_timer);
  quiet_timer = setTimeout(check_script, QUIET);
  mark_answers();
  taken_back.length = 0;
  if (text.value !== stories[0].script) by_id('visit').hidden = true;
}
text.addEventListener('input', take_edit);

// Texts that another one has replaced, the newest last, and such changes that were taken back and can be made again. The
// browser's own undo knows nothing of them.
const replaced = [], taken_back = [], MOST_KEPT = 10;
function keep_text(before, after) {
  taken_back.length = 0;
  if (before && before !== after) replaced.push({before, after});
  if (replaced.length > MOST_KEPT) replaced.shift();
}

// Puts back the text before the last that was replaced. The present one is kept where it was edited.
function bring_back() {
  const last = replaced.pop(), {before, after} = last;
  if (text.value === after) taken_back.push(last);
  else keep_text(text.value, before);
  set_script(before, false);
  text.focus();
}

// Replaces a text again, after it was put back.
function replace_again() {
  const last = taken_back.pop();
  replaced.push(last);
  set_script(last.after, false);
  text.focus();
}

// Answers the keys for undo and redo where the browser itself has nothing to undo or redo. Returns whether it did.
function undo_replacing(e) {
  if (!(e.ctrlKey || e.metaKey) || e.altKey) return false;
  const key = (e.shiftKey ? 'shift ' : '') + e.key.toLowerCase(), last = (list) => list[list.length - 1] || {};
  const is_undo = key === 'z' && last(replaced).after === text.value;
  const is_redo = ['y', 'shift z'].includes(key) && last(taken_back).before === text.value;
  if (!is_undo && !is_redo) return false;
  e.preventDefault();
  if (is_undo) bring_back();
  else replace_again();
  return true;
}
by_id('before').addEventListener('click', bring_back);

// Marks the answers of Walk and Explore that an edit of the script has made old.
function mark_answers() {
  for (const [id, script] of [['replies', session.script], ['found', searched]]) {
    by_id(id).classList.toggle('older', script !== null && script !== text.value);
  }
}

// Nothing that was shown of another script stays, but its picture, which is marked.
function clear_answers() {
  for (const id of ['rate', 'found', 'story', 'hint', 'findings']) by_id(id).textContent = '';
  findings = [];
  close_choices();
  begin_session();
  mark_old_picture();
  if (caller) report('checking');
}

// Puts another script into the editor. What was shown of the old one goes.
function set_script(value, is_kept = true) {
  const before = text.value;
  text.value = value;
  if (is_kept) keep_text(before, text.value);
  by_id('before').hidden = replaced.length === 0;
  text.setSelectionRange(0, 0);
  clearTimeout(quiet_timer);
  if (search) stop_search();
  clear_answers();
  if (value.includes('\r')) by_id('story').textContent = 'Its line ends, CR LF, are LF here, and in what is saved.';
  by_id('visit').hidden = value !== stories[0].script;
  Object.assign(editor, {moment: null, problems: []});
  timeline.moment = null;
  read_text();
  text.scrollTop = 0;
  measure_editor();
  show_problems('');
  return check_script();
}
