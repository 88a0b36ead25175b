// ---- walking: a session's lines are sent again with each new one, and its reply is shown

const MOVES = /^(goto|back|on|cont|rcont|watch|unwatch|break)\b/;
const session = {lines: [], script: null, at: null, asked: [], shown: -1};

function begin_session() {
  Object.assign(session, {lines: [], script: text.value, at: null});
  by_id('replies').textContent = '';
  mark_answers();
}

function show_reply(line, reply) {
  by_id('replies').insertAdjacentHTML('beforeend', `<b>&gt; ${plain(line)}</b>\n${plain(reply)}\n`);
  by_id('replies').scrollTop = by_id('replies').scrollHeight;
}

// Commands run in turn, in a worker of their own: a check, which ends the calls of an older edit, doesn't end them.
let walker = null, asking = Promise.resolve();
function ask(line) {
  asking = asking.then(() => run_line(line)).catch((error) => show_reply(line, error.message));
  return asking;
}

// Runs a line at the moment that the page shows. The timeline follows.
async function run_line(line) {
  if (!program) {
    show_reply(line, absent);
    return;
  }
  walker = walker || new Caller();
  if (session.script !== text.value) begin_session();
  const script = text.value, {moment} = timeline, is_moved = moment !== null && moment !== session.at;
  const before = is_moved ? [...session.lines, `goto ${moment}`] : session.lines;
  const done = await walker.run(['walk', NAME], script_files(), [...before, line, 'where', ''].join('\n'));
  if (script !== text.value) {
    show_reply(line, 'an edit ended this command');
    return;
  }
  const replies = done.out.split('\n'), reply = replies[before.length], where = (replies[before.length + 1] || '').match(/^at (\d+) of /);
  show_reply(line, reply === undefined || done.status === null ? (done.err || 'the script has problems').trim() : reply);
  if (!where) return;
  session.lines = MOVES.test(line) && !/^(fault|refused)/.test(reply) ? [...before, line] : before;
  session.at = Number(where[1]);
  if (session.at !== timeline.moment) go_to_moment(session.at);
}

// The arrow keys bring back earlier lines.
function recall(by) {
  session.shown = within(-1, session.shown + by, session.asked.length - 1);
  by_id('line').value = session.shown < 0 ? '' : session.asked[session.asked.length - 1 - session.shown];
}
by_id('line').addEventListener('keydown', (e) => {
  const by = {ArrowUp: 1, ArrowDown: -1}[e.key];
  if (!by) return;
  e.preventDefault();
  recall(by);
});
by_id('ask').addEventListener('submit', (e) => {
  const line = by_id('line').value.trim();
  e.preventDefault();
  by_id('line').value = '';
  session.shown = -1;
  if (!line) return;
  session.asked.push(line);
  ask(line);
});
for (const it of all_of('[data-line]')) it.addEventListener('click', () => ask(it.dataset.line));
