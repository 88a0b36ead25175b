// The lanes of the picture: threads, poller, rings,
// backlog and clock, and below them the rows that are in view.

// Sizes in pixels.
const AXIS = 40, LANE = 24, GRAPH = 36, CLOCK = 28, ROW = 22, MARGIN = 90, MOST_COLUMN = 64;

const ENDINGS = {
  good: 'completed', short: 'completed short', bad: 'completed with an error', canceled: 'canceled (-125)',
  expired: 'timed out (-62)', open: 'not completed',
};

const {from, to, findings} = run;
const rows = new Map(run.rows.map((row) => [row.row, row]));

// Returns when a finding is: at a moment, or since one, whose event has nothing to do with it.
const when = (finding) => `${finding.since ? 'since moment' : 'at'} ${finding.moment}`;

function lane_key(word, number) {
  if (word === 'step') return `thread ${number}`;
  if (word === 'take' || word === 'sleep') return 'poller';
  return word === 'tick' ? 'clock' : `row ${number}`;
}

const steps = run.steps.map((step, k) => {
  const [word, number] = step.event.split(' ');
  return Object.assign(step, {index: from + k, word, key: lane_key(word, number)});
});

function ending(row) {
  if (row.ended === null) return 'open';
  if (row.result === -125) return 'canceled';
  if (row.result === -62) return 'expired';
  if (row.result < 0) return 'bad';
  return [READ, WRITE].includes(row.op) && row.result < row.len ? 'short' : 'good';
}

// Returns the lane of the thread or poller that submitted a row, or null if that is before the first moment.
function submitter(row) {
  const step = steps[row.queued - 1 - from];
  return step ? step.key : null;
}

for (const row of run.rows) Object.assign(row, {ending: ending(row), by: submitter(row)});

// Returns the periods in which a place has a value that passes a test.
function spans(place, passes) {
  const found = [];
  let value = new Map(run.values).get(place), since = passes(value) ? from : null;
  for (const step of steps) {
    const changed = step.changes.find((it) => it[0] === place);
    if (!changed) continue;
    if (since !== null) found.push({since, until: step.index + 1, value});
    value = changed[2];
    since = passes(value) ? step.index + 1 : null;
  }
  if (since !== null) found.push({since, until: to, value});
  return found;
}

// Returns the rows that an event of another row completed: a cancel, a linked timeout, or a completion that a timeout
// counts.
function causes() {
  const ended = new Map(), found = [];
  for (const row of run.rows) {
    if (row.ended === null) continue;
    if (!ended.has(row.ended)) ended.set(row.ended, []);
    ended.get(row.ended).push(row);
  }
  for (const step of steps.filter((it) => it.word === 'finish' || it.word === 'expire')) {
    const cause = rows.get(step.row);
    for (const row of ended.get(step.index + 1) || []) {
      const is_other = cause && row !== cause && (row.unit !== cause.unit || row.row === cause.target);
      if (is_other) found.push({cause, row, index: step.index});
    }
  }
  return found;
}
const arrows = causes();

// ---- the lanes above the rows

function thread_lanes() {
  return run.programs.map((_, t) => ({
    key: `thread ${t}`, label: `thread ${t}`, height: LANE, does: 'waits', thread: `thread ${t}`,
    spans: spans(`stage ${t}`, (it) => it.startsWith('waiting')),
  }));
}

function poller_lanes() {
  if (!new Map(run.values).has('poller')) return [];
  const asleep = spans('poller', (it) => it === 'asleep');
  return [{key: 'poller', label: 'poller', height: LANE, does: 'sleeps', thread: 'poller', spans: asleep}];
}

function ring_lanes() {
  const labels = [`submission ring (${run.entries})`, `completion ring (${run.completions})`, 'backlog'];
  return labels.map((label, part) => {
    const most = run.fillings.reduce((highest, it) => Math.max(highest, it[part]), 0);
    return {key: label, label, height: GRAPH, part, most: Math.max(1, most), is_used: most > 0};
  });
}

// The indexes of each lane's events, in order.
const events_by_lane = new Map();
for (const step of steps) {
  if (!events_by_lane.has(step.key)) events_by_lane.set(step.key, []);
  events_by_lane.get(step.key).push(step.index);
}

const head_lanes = [...thread_lanes(), ...poller_lanes(), ...ring_lanes(), {key: 'clock', label: 'clock (ns)', height: CLOCK}];
const row_lanes = run.rows.map((row) => ({key: `row ${row.row}`, label: `row ${row.row} ${row.name}`, height: ROW, row}));

// How many rows have not completed at each moment.
const alive_counts = (() => {
  const counts = new Int32Array(to - from + 2);
  for (const row of run.rows) {
    counts[Math.max(0, row.queued - from)] += 1;
    if (row.ended !== null && row.ended <= to) counts[Math.max(0, row.ended - from)] -= 1;
  }
  for (let i = 1; i < counts.length; i += 1) counts[i] += counts[i - 1];
  return counts;
})();

// ---- what is in view

const view = {
  moment: from, lane: null, left: from, column: 24, raw: false, folds: true, thread: '', found: [], query: '',
};

// The size of the picture, and how far its rows are scrolled. Reading them from the page is slow, so it is done once.
const size = {width: 0, height: 0, top: 0};
function measure() {
  Object.assign(size, {width: main.clientWidth, height: main.clientHeight, top: main.scrollTop});
}
measure();

const labels_width = () => (size.width < 560 ? 118 : 196);
const plot_width = () => Math.max(40, size.width - labels_width());
const last_moment = () => view.left + plot_width() / view.column;

function is_in_view(row, last) {
  return row.queued <= last && (row.ended === null || row.ended >= view.left - 1);
}

// Returns whether one of some numbers in order is from one number to another.
function has_between(numbers, low, high) {
  let begin = 0, end = numbers.length;
  while (begin < end) {
    const middle = (begin + end) >> 1;
    if (numbers[middle] < low) begin = middle + 1;
    else end = middle;
  }
  return begin < numbers.length && numbers[begin] <= high;
}

// Returns whether a lane has something to show: a thread or the poller in the part in view, the backlog in the run.
function is_used(lane) {
  if (lane.key === view.lane || (!lane.thread && lane.key !== 'backlog')) return true;
  if (lane.key === 'backlog') return lane.is_used;
  const low = Math.floor(view.left), high = last_moment();
  return has_between(events_by_lane.get(lane.key) || [], low, high) || lane.spans.some((it) => it.since <= high && it.until >= low);
}

// Returns whether a lane is one of the thread that is chosen, if one is. Who submitted a row before the first moment is not known.
const passes_filter = (lane) => !view.thread || (lane.row ? [view.thread, 'poller', null].includes(lane.row.by) : !lane.thread || lane.thread === view.thread);

// Returns the lanes that are drawn, each with its top, and how many are folded away.
function layout() {
  const lanes = [], last = last_moment();
  let top = AXIS, folded = 0;
  const add = (lane) => {
    lanes.push(Object.assign(lane, {top}));
    top += lane.height;
  };
  for (const lane of head_lanes.filter(passes_filter)) {
    if (view.folds && !is_used(lane)) folded += 1;
    else add(lane);
  }
  const head_count = lanes.length, head_height = top + 6;
  top = head_height;
  for (const lane of row_lanes.filter(passes_filter)) {
    if (view.folds && !is_in_view(lane.row, last)) folded += 1;
    else add(lane);
  }
  return {lanes, head_count, head_height, height: top + (folded ? ROW : 8), folded, index: new Map(lanes.map((it, k) => [it.key, k]))};
}
