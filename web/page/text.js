// ---- the text of the script: lines, places and colors

const TOKEN = /("(?:[^"\\\n]|\\.)*")|(-?\d[\d.eE+-]*)|\b(true|false|null)\b|([^"\d\w-]+|.)/g;

// Returns the HTML of a part of a line, in colors.
const colored = (part) => part.replace(TOKEN, (all, string, number, word) => {
  const kind = string ? 'string' : number ? 'number' : word ? 'word' : null;
  return kind ? `<span class="${kind}">${plain(all)}</span>` : plain(all);
});

// Returns where each line starts.
function starts_of(value) {
  const starts = [0];
  for (let at = value.indexOf('\n'); at >= 0; at = value.indexOf('\n', at + 1)) starts.push(at + 1);
  return starts;
}

// Returns the number of the line, from 0, that has an offset.
function line_at(starts, offset) {
  let low = 0, high = starts.length;
  while (high - low > 1) {
    const middle = (low + high) >> 1;
    if (starts[middle] <= offset) low = middle;
    else high = middle;
  }
  return low;
}

const line_text = (value, starts, line) => value.slice(starts[line], line + 1 < starts.length ? starts[line + 1] - 1 : value.length);

// Returns the offset of a line and a column, both from 1; columns count bytes.
function offset_in_bytes(value, starts, line, column) {
  const number = within(0, line - 1, starts.length - 1), bytes = encode(line_text(value, starts, number));
  return starts[number] + decode(bytes.slice(0, Math.max(0, column - 1))).length;
}

// Returns the end of a string of JSON that starts at an offset.
function end_of_string(value, start) {
  let at = value.indexOf('"', start + 1);
  for (; at >= 0; at = value.indexOf('"', at + 1)) {
    let slashes = 0;
    while (value[at - 1 - slashes] === '\\') slashes += 1;
    if (slashes % 2 === 0) return at;
  }
  return value.length;
}

// Returns the text of a string of JSON; where it has a wrong escape, that string.
function text_of_string(string) {
  try {
    return JSON.parse(string);
  } catch (_) {
    return string;
  }
}

// Returns the places of the items of the last list that has this key in the outermost object, as pairs of offsets; none where
// that list isn't there, or doesn't end.
function spans_of_list(value, key) {
  const tokens = /["[\]{}]/g;
  let spans = [], last = [], depth = 0, begin = 0, is_it = false;
  for (let found = tokens.exec(value); found; found = tokens.exec(value)) {
    const at = found.index;
    if (found[0] === '"') {
      tokens.lastIndex = end_of_string(value, at) + 1;
      if (depth === 1) is_it = text_of_string(value.slice(at, tokens.lastIndex)) === key;
    } else if (found[0] === '[' || found[0] === '{') {
      depth += 1;
      if (depth === 3) begin = at;
    } else {
      depth -= 1;
      if (is_it && depth === 2) spans.push([begin, at + 1]);
      if (is_it && depth === 1) [last, spans] = [spans, []];
    }
  }
  return last;
}

// Returns the entry around an offset: the text of the object that has no other within.
function object_around(value, offset) {
  const open = value.lastIndexOf('{', offset - 1), close = value.indexOf('}', Math.max(open, offset));
  if (open < 0 || close < 0 || close - open > 2000) return '';
  const text = value.slice(open, close + 1);
  return text.indexOf('}') === text.length - 1 && text.lastIndexOf('{') === 0 ? text : '';
}
