// ---- what is wrong: the problems of the script, and the findings of its run

let findings = [];

// Returns the problems that `check` prints: those with a line and a column, and others as they are.
function problems_in(printed) {
  return printed.split('\n').filter((it) => it && it !== 'ok').map((whole) => {
    const found = whole.match(/^script\.json:(\d+):(\d+): (warning: )?(.*)$/);
    if (!found) return {line: null, offset: null, words: whole.replace(/^script\.json: /, '')};
    const line = Number(found[1]), offset = offset_in_bytes(text.value, editor.starts, line, Number(found[2]));
    return {line, offset, words: (found[3] || '') + found[4]};
  });
}

function show_problems(printed) {
  editor.problems = problems_in(printed);
  const place = ({line}) => (line ? `<b>${line}</b> ` : '');
  const item = (it, k) => `<li><button type="button" data-problem="${k}">${place(it)}${plain(it.words)}</button></li>`;
  by_id('problems').innerHTML = editor.problems.map(item).join('');
  draw_text();
}

// Shows the findings. Their places in the script are in the SARIF log, in the same order.
function show_findings(printed, sarif) {
  const places = JSON.parse(sarif).runs[0].results.map((it) => it.locations && it.locations[0].physicalLocation.region);
  findings = JSON.parse(printed).map((it, k) => ({...it, place: places[k]}));
  const level = (it) => (it.fault ? 'fault' : 'note'), when = (it) => `${it.since ? 'since' : 'at'} ${it.moment}`;
  const item = (it, k) => `<li><button type="button" class="${level(it)}" data-finding="${k}"><b>${plain(it.kind)}</b>`
    + ` <span class="faint">${when(it)}, ${level(it)}</span> ${plain(it.text)}</button></li>`;
  by_id('findings').innerHTML = findings.map(item).join('') || '<li class="faint">No findings.</li>';
  const faults = findings.filter((it) => it.fault).length;
  report(`${counted(faults, 'fault')}, ${counted(findings.length - faults, 'note')}`, faults > 0);
}

function go_to_finding({moment, place}) {
  go_to_moment(moment);
  if (place && !is_narrow()) show_line(offset_in_bytes(text.value, editor.starts, place.startLine, 1));
  if (is_narrow()) show_pane('picture');
}

// Calls a function with the number that a click's button has.
const by_number = (key, call) => (e) => {
  const button = e.target.closest('button');
  if (button) call(Number(button.dataset[key]));
};
by_id('problems').addEventListener('click', by_number('problem', (k) => {
  if (editor.problems[k].offset !== null) go_to_offset(editor.problems[k].offset);
}));
by_id('findings').addEventListener('click', by_number('finding', (k) => go_to_finding(findings[k])));
