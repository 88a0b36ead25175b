// ---- the timeline: the program's own page in a frame, which exchanges the moment with this one

// The most events of a picture here: those around the moment.
const MOST_DRAWN = 2000;
const timeline = {frame: null, coming: null, drawing: null, moment: null, from: 0, to: 0};

// Returns the part of a run that is drawn.
function part_of(events) {
  if (events <= MOST_DRAWN) return {from: 0, to: events};
  const first = findings.find((it) => it.fault) || findings[0], middle = timeline.moment ?? (first ? first.moment : events);
  const from = within(0, middle - MOST_DRAWN / 2, events - MOST_DRAWN);
  return {from, to: from + MOST_DRAWN};
}

// Returns whether a part has the moment.
const has_moment = ({from, to}) => timeline.moment === null || timeline.moment >= from && (timeline.moment <= to || to === editor.events.length);

function drop_coming() {
  if (!timeline.coming) return;
  URL.revokeObjectURL(timeline.coming.dataset.address);
  timeline.coming.remove();
  timeline.coming = null;
}

// Marks the picture as an older one, and drops one that is loading.
function mark_old_picture() {
  drop_coming();
  by_id('stale').hidden = !timeline.frame;
}

// Loads a picture out of sight. It replaces the old one once it reports its moment.
function load_picture(bytes, part) {
  drop_coming();
  const frame = document.createElement('iframe'), {moment} = timeline;
  frame.className = 'coming';
  frame.title = 'Timeline of the run';
  frame.setAttribute('sandbox', 'allow-scripts');
  frame.dataset.moment = moment;
  frame.dataset.address = URL.createObjectURL(new Blob([bytes], {type: 'text/html'}));
  frame.src = frame.dataset.address + (moment === null ? '' : `#${moment}`);
  Object.assign(timeline, {coming: frame, part});
  by_id('frames').append(frame);
}

function replace_picture() {
  const old = timeline.frame, has_focus = old && document.activeElement === old;
  URL.revokeObjectURL(timeline.coming.dataset.address);
  timeline.coming.className = '';
  Object.assign(timeline, {frame: timeline.coming, coming: null}, timeline.part);
  if (has_focus) timeline.frame.focus();
  if (old) old.remove();
  by_id('stale').hidden = true;
}

// Takes the moment that the picture reports.
function take_moment(moment) {
  timeline.moment = moment;
  mark_event(moment);
}

// Takes the picture that has loaded, or drops it where the moment has left its part meanwhile.
function take_picture(moment) {
  const wanted = timeline.moment, has_moved = wanted !== null && timeline.coming.dataset.moment !== `${wanted}`;
  if (!has_moment(timeline.part)) {
    drop_coming();
    if (!timeline.drawing) draw_run();
    return;
  }
  replace_picture();
  if (has_moved) go_to_moment(wanted);
  else take_moment(moment);
}

addEventListener('message', ({source, data}) => {
  const moment = data && Number.isInteger(data.moment) ? data.moment : null, {frame, coming} = timeline;
  if (moment === null) return;
  if (coming && source === coming.contentWindow) {
    take_picture(moment);
  } else if (frame && source === frame.contentWindow && moment !== timeline.moment) take_moment(moment);
});

// Goes to a moment everywhere. Where the picture hasn't it, another part of the run is drawn.
function go_to_moment(moment) {
  take_moment(moment);
  if (!timeline.frame) return;
  if (moment < timeline.from || moment > timeline.to) draw_run();
  else timeline.frame.contentWindow.postMessage({moment}, '*');
}
