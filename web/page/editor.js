// ---- the editor: a text field, over it the text in colors, and line numbers

const text = by_id('text'), paint = by_id('paint'), gutter = by_id('gutter');
// A line that is longer has no colors, nor have more columns in view, and with a line that is longer than those, none is
// painted: that would be slow.
const MOST_COLUMNS = 2000, MOST_SEEN = 20000;
const editor = {starts: [0], problems: [], events: [], moment: null, height: 20};

function measure_editor() {
  editor.height = parseFloat(getComputedStyle(text).lineHeight);
}

// Returns the part that a problem marks: what starts there, or else the character before. An empty line has neither.
function wrong_part({offset}) {
  const token = text.value.slice(offset, offset + 200).match(/^("[^"\n]*"?|[[{][^\n]*|[\w.+-]+|.)/);
  if (token) return [offset, offset + token[0].length, 'wrong'];
  return [offset > 0 && text.value[offset - 1] !== '\n' ? offset - 1 : offset, offset, 'wrong'];
}

// Returns the parts of a span that no mark covers.
function uncovered([from, to], marked) {
  const parts = [];
  let at = from;
  for (const [begin, end] of marked) {
    parts.push([at, Math.min(begin, to)]);
    at = Math.max(at, end);
  }
  return [...parts, [at, to]].filter(([begin, end]) => begin < end);
}

// Returns the marked parts, in order: problems, and what they leave of the event of the moment.
function marks() {
  const in_order = (one, other) => one[0] - other[0], event = editor.moment === null ? null : editor.events[editor.moment];
  const found = editor.problems.filter((it) => it.offset !== null).map(wrong_part).sort(in_order);
  const left = event ? uncovered(event, found).map((it) => [...it, 'event_here']) : [];
  return [...found, ...left].sort(in_order);
}

// Returns the HTML of the line from one offset to another.
function painted(from, to, marked, is_colored) {
  const out = [], shown = is_colored ? colored : plain;
  let at = from;
  if (from === to && marked.some(([begin, end]) => begin === from && end === from)) return '<span class="wrong"> </span>';
  for (const [begin, end, kind] of marked) {
    if (end <= at || begin >= to) continue;
    const start = Math.max(at, begin), stop = Math.min(end, to);
    out.push(shown(text.value.slice(at, start)), `<span class="${kind}">${shown(text.value.slice(start, stop))}</span>`);
    at = stop;
  }
  return out.join('') + shown(text.value.slice(at, to));
}

// Returns the HTML of the numbers of the lines in view.
function numbers(first, last) {
  const wrong = new Set(editor.problems.map((it) => it.line)), event = editor.moment === null ? null : editor.events[editor.moment];
  const here = event ? line_at(editor.starts, event[0]) : -1;
  return Array.from({length: last - first}, (_, k) => first + k)
    .map((k) => (wrong.has(k + 1) ? `<b>${k + 1}</b>` : k === here ? `<i>${k + 1}</i>` : k + 1)).join('\n');
}

// Paints the lines in view.
function draw_text() {
  const {starts, height} = editor, lines = starts.length;
  const first = within(0, Math.floor(text.scrollTop / height), lines - 1);
  const last = Math.min(lines, first + Math.ceil(text.clientHeight / height) + 2);
  const seen = starts.slice(first, last).map((from, k) => [from, first + k + 1 < lines ? starts[first + k + 1] - 1 : text.value.length]);
  const is_bare = seen.some(([from, to]) => to - from > MOST_SEEN), shift = first * height - text.scrollTop, marked = marks();
  gutter.innerHTML = `<div>${numbers(first, last)}</div>`;
  gutter.firstChild.style.transform = `translateY(${shift}px)`;
  text.classList.toggle('bare', is_bare);
  let left = MOST_SEEN;
  const line = ([from, to]) => {
    const is_colored = to - from <= Math.min(MOST_COLUMNS, left);
    if (is_colored) left -= to - from;
    return painted(from, to, marked, is_colored);
  };
  paint.innerHTML = is_bare ? '' : seen.map(line).join('\n');
  Object.assign(paint.parentElement.style, {width: `${text.clientWidth}px`, height: `${text.clientHeight}px`});
  paint.style.transform = `translate(${-text.scrollLeft}px, ${shift}px)`;
}

// Takes a changed text.
function read_text() {
  editor.starts = starts_of(text.value);
  editor.events = spans_of_list(text.value, 'schedule');
  gutter.style.width = `${String(editor.starts.length).length + 2}ch`;
}

function show_line(offset) {
  const top = line_at(editor.starts, offset) * editor.height;
  if (top < text.scrollTop || top > text.scrollTop + text.clientHeight - 2 * editor.height) text.scrollTop = top - text.clientHeight / 3;
}

// Goes to a place of the script, with the focus.
function go_to_offset(offset) {
  show_pane('script');
  text.focus();
  text.setSelectionRange(offset, offset);
  show_line(offset);
  draw_text();
}

// Marks the event of a moment in the script, and scrolls to it.
function mark_event(moment) {
  editor.moment = moment;
  const event = editor.events[moment];
  if (event && document.activeElement !== text) show_line(event[0]);
  draw_text();
}

const insert = (some) => document.execCommand('insertText', false, some);

// Indents the lines of the selection, or at the cursor.
function indent() {
  const {selectionStart: from, selectionEnd: to, value} = text;
  if (from === to) {
    insert('  ');
    return;
  }
  const start = value.slice(0, from).lastIndexOf('\n') + 1, lines = value.slice(start, to).replace(/^(?=.)/gm, '  ');
  text.setSelectionRange(start, to);
  insert(lines);
  text.setSelectionRange(start, start + lines.length);
}

// Right after Escape, Tab leaves the text.
let leaves = false;
function on_text_key(e) {
  const is_leaving = leaves;
  leaves = e.key === 'Escape';
  if (complete_by_key(e) || undo_replacing(e)) return;
  if (e.key !== 'Tab' || is_leaving || e.shiftKey || e.ctrlKey || e.altKey || e.metaKey) return;
  e.preventDefault();
  indent();
}
text.addEventListener('keydown', on_text_key);
text.addEventListener('focus', () => {
  leaves = false;
});
text.addEventListener('blur', close_choices);
text.addEventListener('scroll', draw_text);
new ResizeObserver(() => {
  measure_editor();
  draw_text();
}).observe(text);
