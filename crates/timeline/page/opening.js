// Fills the page, and opens it at the moment in its address,
// at its first fault, at its first note, or at its end.

document.title = `${run.run} - uringwalk timeline`;
by_id('name').textContent = `uringwalk timeline ${run.run}`;

const counted = (count, noun) => `${count} ${noun}${count === 1 ? '' : 's'}`;
function about() {
  const some = to - from === 1 ? `Event ${from}` : to > from ? `Events ${from} to ${to - 1}` : 'No events';
  const shown_events = to - from === run.events ? counted(run.events, 'event') : `${some} of ${run.events}`;
  const faults = findings.filter((it) => it.fault).length;
  const found = [counted(faults, 'fault'), counted(findings.length - faults, 'note')].join(', ');
  return `${shown_events}, ${counted(run.rows.length, 'row')}, ${counted(run.programs.length, 'thread')}; ${found}. Moment M is the state before event M.`;
}
by_id('about').textContent = about();

const sign = (inner, text) => element('span', {}, element('svg', {width: 30, height: 16, 'aria-hidden': true}, inner) + plain(text));
const TIES = {'': 'link', hard: 'hard link', timeout: 'linked timeout', cancel: 'completed by another row'};
const MARKS = {
  put: 'put', push: 'push', reap: 'reap', store: 'store', close: 'close', round: 'enter, finish, expire, take', bar: 'issue, tick',
};
function key_html() {
  const ends = Object.keys(ENDINGS).map((it) => sign(element('rect', {x: 2, y: 3, width: 26, height: 10, fill: `var(--${it})`}), ENDINGS[it]));
  const queued = sign(element('rect', {class: 'queued', stroke: 'var(--faint)', x: 2, y: 4, width: 26, height: 8}), 'queued');
  const shapes = Object.keys(MARKS).map((it) => sign(element('path', {class: it === 'round' ? 'hollow' : 'mark', d: SHAPES[it](15, 8, 4)}), MARKS[it]));
  const ties_shown = Object.keys(TIES).map((it) => sign(element('path', {class: `link ${it}`, d: 'M2 8H28'}), TIES[it]));
  const kinds = ['fault', 'note'].map((it) => sign(element('path', {class: it, d: 'M15 2l6 12h-12z'}), it));
  const waiting = sign(rect('wait', 2, 3, 26, 10), 'waits, sleeps'), drain = sign(rect('mark', 12, 1, 3, 14), 'drain');
  return [['Rows', [queued, ...ends, drain]], ['Events', shapes], ['Lines', ties_shown], ['Others', [...kinds, waiting]]]
    .map(([title, all]) => element('p', {}, `<b>${title}</b> ${all.join(' ')}`)).join('');
}
by_id('legend').innerHTML = key_html();

for (const {key, thread} of head_lanes) {
  if (thread) by_id('thread').insertAdjacentHTML('beforeend', element('option', {value: key}, plain(key)));
}
by_id('findings').innerHTML = findings_html();
by_id('moment').min = from;
by_id('moment').max = to;
view.is_found = new Set();

function first_moment() {
  const asked = asked_moment(), first = findings.find((it) => it.fault) || findings[0];
  if (asked !== null) return asked;
  return first ? first.moment : to;
}

// Shows the rows around a moment whole, if they fit.
function show_around(moment) {
  view.moment = within(from, moment, to);
  const near = run.rows.filter((row) => row.queued <= view.moment + 1 && (row.ended === null || row.ended >= view.moment - 1));
  const begin = near.reduce((least, row) => Math.min(least, row.queued), view.moment) - 2;
  const end = near.reduce((most, row) => Math.max(most, row.ended === null || row.ended > to ? view.moment : row.ended), view.moment) + 2;
  const room_across = plot_width() - MARGIN;
  view.column = within(Math.min(6, least_column()), Math.min(28, room_across / (end - begin)), 36);
  if (whole_column() >= 10) view.column = Math.min(36, whole_column());
  view.column = Math.max(view.column, 5);
  view.left = Math.max(from, Math.min(begin, view.moment - room_across / view.column / 2));
}

// Within another page, that one shows the run's name and the findings, and has the focus.
// The two exchange the moment.
const is_framed = parent !== window;
let told_moment = null;
window.addEventListener('message', (e) => {
  if (!is_framed || e.source !== parent || !Number.isInteger(e.data.moment)) return;
  told_moment = e.data.moment;
  pick(told_moment);
  told_moment = null;
});
for (const id of ['name', 'findings']) by_id(id).style.display = is_framed ? 'none' : '';

const now_state = first_state(run);
draw_overview();
show_around(first_moment());
pick(view.moment);
if (!is_framed) main.focus({preventScroll: true});
