// ---- opcodes by their names: as one types, and of the entry at the cursor

const OPCODES = embedded('opcodes');
const FLAGS = {2: 'IOSQE_IO_DRAIN', 4: 'IOSQE_IO_LINK', 8: 'IOSQE_IO_HARDLINK', 16: 'IOSQE_ASYNC'};
const choices = by_id('choices');
const completion = {start: 0, typed: '', found: [], chosen: 0};

// Returns what one types as an opcode: the letters after `"op":`, and where they start.
function typed_opcode() {
  const at = text.selectionStart, before = text.value.slice(Math.max(0, at - 60), at);
  if (at !== text.selectionEnd) return null;
  const found = before.match(/"op"\s*:\s*"?([A-Za-z_]+)$/);
  if (!found) return null;
  const letters = found[1], quotes = before[before.length - letters.length - 1] === '"' ? 1 : 0;
  return {letters: letters.toUpperCase(), start: at - letters.length - quotes, typed: before.slice(-letters.length - quotes)};
}

function show_choices() {
  const {found, chosen} = completion;
  choices.hidden = found.length === 0;
  const item = ([name, number], k) => `<li id="choice${k}" role="option" aria-selected="${k === chosen}">${name}`
    + ` <span class="faint">${number}</span></li>`;
  choices.innerHTML = found.map(item).join('');
  if (found.length) text.setAttribute('aria-activedescendant', `choice${chosen}`);
  else text.removeAttribute('aria-activedescendant');
}

function complete() {
  const typed = typed_opcode();
  const found = typed ? OPCODES.filter(([name]) => name.includes(typed.letters)) : [];
  Object.assign(completion, typed, {found, chosen: 0});
  show_choices();
}

function close_choices() {
  completion.found = [];
  show_choices();
}

// Returns whether there are choices for what is right before the cursor.
function is_offered() {
  const {start, typed, found} = completion, end = start + typed.length;
  return found.length > 0 && text.selectionStart === end && text.selectionEnd === end && text.value.slice(start, end) === typed;
}

// Writes the number of the opcode that was chosen in place of the whole word.
function take_choice(k) {
  const [, number] = completion.found[k], {start, typed} = completion, {value} = text, at = start + typed.length;
  const end = at + value.slice(at, at + 60).match(/^\w*/)[0].length, quote = typed[0] === '"' && value[end] === '"' ? 1 : 0;
  text.setSelectionRange(start, end + quote);
  insert(String(number));
  close_choices();
}

// Answers a key while choices are shown, and returns whether it did.
function complete_by_key(e) {
  const {found, chosen} = completion, moves = {ArrowDown: 1, ArrowUp: -1};
  if (!is_offered() || e.shiftKey || e.ctrlKey || e.altKey || e.metaKey) return false;
  if (e.key in moves) completion.chosen = (chosen + moves[e.key] + found.length) % found.length;
  else if (e.key === 'Escape') completion.found = [];
  else if (e.key !== 'Enter' && e.key !== 'Tab') return false;
  e.preventDefault();
  if (e.key === 'Enter' || e.key === 'Tab') take_choice(chosen);
  else show_choices();
  return true;
}
choices.addEventListener('mousedown', (e) => {
  const choice = e.target.closest('li');
  e.preventDefault();
  if (choice && is_offered()) take_choice([...choices.children].indexOf(choice));
});

// Shows the names of the opcode and the flags of the entry at the cursor.
function show_names() {
  const entry = object_around(text.value, text.selectionStart);
  const number = (key) => Number((entry.match(`"${key}"\\s*:\\s*(\\d+)`) || [])[1] || 0);
  if (!/"op"\s*:\s*\d/.test(entry)) {
    by_id('names').textContent = '';
    return;
  }
  const known = OPCODES.find(([, it]) => it === number('op')), flags = Object.keys(FLAGS).filter((it) => number('flags') & it);
  by_id('names').textContent = [`op ${number('op')} is ${known ? known[0] : 'not modelled'}`, ...flags.map((it) => FLAGS[it])].join(', ');
}
document.addEventListener('selectionchange', () => {
  if (completion.found.length && !is_offered()) close_choices();
  if (document.activeElement === text) show_names();
});
