// Moving about: keys, the wheel, dragging, the search,
// the filter, and the moment in the page's address.

const LEAST_COLUMN = 0.02, ZOOM = 1.4;

const whole_column = () => (plot_width() - MARGIN) / Math.max(1, to - from);
const least_column = () => Math.max(LEAST_COLUMN, Math.min(12, whole_column()));

// Keeps the part in view within the run.
function keep_within() {
  const room_after = MARGIN / view.column, across = plot_width() / view.column;
  view.left = within(from, view.left, Math.max(from, to + room_after - across));
}

// Moves the part in view so that the moment is in it.
function keep_in_view() {
  const across = plot_width() / view.column, edge = Math.min(3, across / 4);
  if (view.moment < view.left + edge) view.left = view.moment - across / 3;
  if (view.moment > view.left + across - edge - 1) view.left = view.moment - across * 2 / 3;
  keep_within();
}

// Scrolls to the rows that have not completed at the moment, or else to the last one that has.
function keep_rows_in_view() {
  const place = frame(layout()), chosen = place.index.get(view.lane);
  room.style.height = `${Math.max(place.height, size.height)}px`;
  const shown_rows = place.lanes.slice(place.head_count).filter((lane) => lane.row.queued <= Math.max(view.moment, from));
  const alive = shown_rows.find((lane) => lane.row.ended === null || lane.row.ended >= view.moment);
  const lane = chosen >= place.head_count ? place.lanes[chosen] : alive || shown_rows[shown_rows.length - 1];
  if (!lane) return;
  let top = size.top;
  if (lane.top - top < place.view_top) top = lane.top - place.view_top;
  if (lane.top + 3 * ROW - top > size.height) top = lane.top - place.view_top - Math.max(0, (size.height - place.view_top) / 3);
  top = within(0, top, Math.max(0, place.height - size.height));
  if (top !== size.top) main.scrollTop = top;
  size.top = top;
}

// ---- the moment

// Returns the moment in the page's address, or null.
function asked_moment() {
  const found = location.hash.match(/^#(\d+)$/);
  return found ? Number(found[1]) : null;
}

let hash_timer = null;
function put_hash() {
  clearTimeout(hash_timer);
  hash_timer = setTimeout(() => history.replaceState(null, '', `#${view.moment}`), 120);
}

function show() {
  by_id('moment').value = view.moment;
  keep_in_view();
  keep_rows_in_view();
  draw();
  show_panel();
  put_hash();
  if (is_framed && view.moment !== told_moment) parent.postMessage({moment: view.moment}, '*');
}

// Goes to a moment, and chooses the lane of its event.
function pick(moment, lane) {
  view.moment = within(from, Math.round(moment) || 0, to);
  const step = steps[view.moment - from];
  if (lane) view.lane = lane;
  else if (step) view.lane = step.key;
  show();
}

function choose(direction) {
  const {lanes, index} = layout(), at = index.has(view.lane) ? index.get(view.lane) : 0;
  view.lane = lanes[within(0, at + direction, lanes.length - 1)].key;
  show();
}

// Goes to the next event of the chosen lane: forwards for 1, backwards for -1.
function step_along(direction) {
  const all = direction < 0 ? steps.slice().reverse() : steps;
  const next = all.find((it) => it.key === view.lane && direction * (it.index - view.moment) > 0);
  if (next) pick(next.index, view.lane);
}

// Goes to the next of some moments, in order.
function step_to(moments, direction) {
  const all = direction < 0 ? moments.slice().reverse() : moments;
  const next = all.find((it) => direction * (it - view.moment) > 0);
  if (next !== undefined) pick(next);
}
const step_to_finding = (direction) => step_to(findings.map((it) => it.moment), direction);

// Draws the picture after the part in view has changed.
function redraw() {
  room.style.height = `${Math.max(layout().height, size.height)}px`;
  draw();
}

function zoom(factor, moment) {
  const fixed = moment === undefined ? view.moment : moment, column = within(least_column(), view.column * factor, MOST_COLUMN);
  view.left = fixed - (fixed - view.left) * view.column / column;
  view.column = column;
  keep_within();
  redraw();
}
function fit() {
  view.column = least_column();
  view.left = from;
  show();
}

// ---- search and filter

function search(direction) {
  const query = by_id('search').value;
  if (query !== view.query) {
    view.found = found_by(run, query);
    view.query = query;
    view.is_found = new Set(view.found);
  }
  const here = view.found.includes(view.moment), next = direction < 0 ? view.moment - 1 : view.moment + (view.asked === query && here ? 1 : 0);
  const ordered = direction < 0 ? view.found.slice().reverse() : view.found;
  const hit = ordered.find((it) => (direction < 0 ? it <= next : it >= next));
  view.asked = query;
  if (view.found.length) pick(hit === undefined ? ordered[0] : hit);
  else show();
  show_found();
}

function show_found() {
  const count = view.found.length, at = view.found.indexOf(view.moment) + 1;
  const text = count ? `${at ? `${at} of ` : ''}${count} ${count === 1 ? 'event' : 'events'}` : 'nothing found';
  by_id('found').textContent = view.query.trim() ? text : '';
}

function filter() {
  view.thread = by_id('thread').value;
  main.scrollTop = 0;
  show();
}
function toggle_folds() {
  view.folds = by_id('folds').checked;
  show();
}
function toggle_raw() {
  view.raw = !view.raw;
  show_panel();
}

// ---- keys

const far = (e) => (e.shiftKey ? 10 : 1), page = () => Math.max(1, Math.floor(plot_width() / view.column));
const KEYS = {
  ArrowLeft: (e) => pick(view.moment - far(e)),
  ArrowRight: (e) => pick(view.moment + far(e)),
  ArrowUp: (e) => choose(-far(e)),
  ArrowDown: (e) => choose(far(e)),
  PageUp: () => pick(view.moment - page()),
  PageDown: () => pick(view.moment + page()),
  Home: () => pick(from),
  End: () => pick(to),
  n: () => step_along(1),
  p: () => step_along(-1),
  f: () => step_to_finding(1),
  F: () => step_to_finding(-1),
  ']': () => step_to(view.found, 1),
  '[': () => step_to(view.found, -1),
  '+': () => zoom(ZOOM),
  '=': () => zoom(ZOOM),
  '-': () => zoom(1 / ZOOM),
  0: fit,
  r: toggle_raw,
  '/': () => by_id('search').focus(),
  '?': () => by_id('key').toggleAttribute('open'),
};

// The keys that scroll the state while it has the focus.
const SCROLLING = ['ArrowUp', 'ArrowDown', 'PageUp', 'PageDown', 'Home', 'End'];

function on_key(e) {
  const field = e.target.closest ? e.target.closest('input, select, textarea') : null;
  if (e.key === 'Escape') {
    main.focus();
    return;
  }
  if (field && field.type !== 'checkbox') return;
  if (e.target === by_id('state') && SCROLLING.includes(e.key)) return;
  if (!Object.prototype.hasOwnProperty.call(KEYS, e.key) || e.ctrlKey || e.metaKey || e.altKey) return;
  e.preventDefault();
  KEYS[e.key](e);
}
document.addEventListener('keydown', on_key);

// ---- pointer

// Returns the moment and the lane under the pointer.
function under(e) {
  const box = picture.getBoundingClientRect(), x = e.clientX - box.left, y = e.clientY - box.top, place = frame(layout());
  const depth = place.pinned && y < place.head_height ? y : y + size.top;
  const lane = place.lanes.find((it) => depth >= it.top && depth < it.top + it.height);
  return {x, y, moment: view.left + (x - labels_width()) / view.column, lane: lane ? lane.key : null};
}

// The wheel zooms; sideways, or with Shift, it moves the picture, and over the labels it scrolls the rows.
function on_wheel(e) {
  const {x, moment} = under(e), is_sideways = e.shiftKey || Math.abs(e.deltaX) > Math.abs(e.deltaY);
  if (x < labels_width() && !is_sideways) return;
  e.preventDefault();
  if (is_sideways) {
    view.left += (e.deltaX || e.deltaY) / view.column;
    keep_within();
    redraw();
  } else {
    zoom(1.0018 ** -e.deltaY, moment);
  }
}
main.addEventListener('wheel', on_wheel, {passive: false});

let drag = null;
picture.addEventListener('pointerdown', (e) => {
  drag = {x: e.clientX, y: e.clientY, left: view.left, top: size.top, moved: false};
  picture.setPointerCapture(e.pointerId);
});
picture.addEventListener('pointermove', (e) => {
  if (!drag) return;
  const dx = e.clientX - drag.x, dy = e.clientY - drag.y;
  drag.moved = drag.moved || Math.abs(dx) + Math.abs(dy) > 4;
  if (!drag.moved) return;
  view.left = drag.left - dx / view.column;
  keep_within();
  main.scrollTop = drag.top - dy;
  size.top = main.scrollTop;
  redraw();
});
picture.addEventListener('pointerup', (e) => {
  const was = drag, {x, y, moment, lane} = under(e);
  drag = null;
  main.focus();
  if (!was || was.moved) return;
  const mark_hit = document.elementFromPoint(e.clientX, e.clientY), group = mark_hit ? mark_hit.closest('[data-moment]') : null;
  if (group) pick(Number(group.dataset.moment));
  else if (x >= labels_width() && y >= AXIS) pick(Math.floor(moment), lane);
  else if (lane) {
    view.lane = lane;
    show();
  }
});

picture.addEventListener('pointercancel', () => {
  drag = null;
});

function move_to(e) {
  const box = overview.getBoundingClientRect(), part = (e.clientX - box.left) / Math.max(1, box.width);
  view.left = from + part * (to - from) - plot_width() / view.column / 2;
  keep_within();
  redraw();
}
overview.addEventListener('pointerdown', (e) => {
  const group = e.target.closest('[data-moment]');
  if (group) {
    pick(Number(group.dataset.moment));
    return;
  }
  overview.setPointerCapture(e.pointerId);
  move_to(e);
});
overview.addEventListener('pointermove', (e) => {
  if (e.buttons & 1) move_to(e);
});

// ---- controls

by_id('go').addEventListener('submit', (e) => {
  e.preventDefault();
  if (by_id('moment').value.trim()) pick(Number(by_id('moment').value));
  main.focus();
});
by_id('seek').addEventListener('submit', (e) => {
  e.preventDefault();
  search(1);
});
by_id('search').addEventListener('keydown', (e) => {
  if (e.key !== 'Enter' || !e.shiftKey) return;
  e.preventDefault();
  search(-1);
});
by_id('less').addEventListener('click', () => zoom(1 / ZOOM));
by_id('more').addEventListener('click', () => zoom(ZOOM));
by_id('fit').addEventListener('click', fit);
by_id('raw').addEventListener('click', toggle_raw);
by_id('folds').addEventListener('change', toggle_folds);
by_id('thread').addEventListener('change', filter);
by_id('findings').addEventListener('click', (e) => {
  const button = e.target.closest('button');
  if (button) pick(Number(button.dataset.moment));
});
by_id('state').addEventListener('click', (e) => {
  const button = e.target.closest('button.row');
  if (!button) return;
  pick(Math.max(from, rows.get(Number(button.dataset.row)).queued - 1), `row ${button.dataset.row}`);
  main.focus();
});
main.addEventListener('scroll', () => {
  if (main.scrollTop === size.top) return;
  size.top = main.scrollTop;
  draw();
});
new ResizeObserver(() => {
  const had_size = size.width > 0;
  measure();
  draw_overview();
  if (!had_size) show_around(view.moment);
  keep_within();
  redraw();
}).observe(main);
window.addEventListener('hashchange', () => {
  const moment = asked_moment();
  if (moment !== null) pick(moment);
});
