// ---- panes: in a narrow window one at a time, else only the lower ones are chosen among

const DOCKED = ['findings', 'walk', 'explore'];
function show_pane(name) {
  const docked = DOCKED.includes(name) ? name : document.body.dataset.docked;
  Object.assign(document.body.dataset, {pane: name, docked});
  for (const it of all_of('[role=tab]')) {
    const is_chosen = it.dataset.pane === (it.parentElement.id === 'tabs' ? docked : name);
    it.setAttribute('aria-selected', is_chosen);
    it.tabIndex = is_chosen ? 0 : -1;
  }
  for (const it of DOCKED) by_id(`${it}_pane`).classList.toggle('chosen', it === docked);
}

// The arrow keys move among the tabs of a list.
function on_tab_key(e) {
  const moves = {ArrowLeft: -1, ArrowRight: 1}, tab = e.target.closest('[role=tab]');
  if (!tab || !(e.key in moves)) return;
  const tabs = [...tab.parentElement.children], next = tabs[(tabs.indexOf(tab) + moves[e.key] + tabs.length) % tabs.length];
  e.preventDefault();
  show_pane(next.dataset.pane);
  next.focus();
}
for (const it of all_of('[role=tablist]')) it.addEventListener('keydown', on_tab_key);
for (const it of all_of('[role=tab]')) it.addEventListener('click', () => show_pane(it.dataset.pane));

// Escape closes an open menu, and its button has the focus.
for (const it of all_of('details')) {
  it.addEventListener('keydown', (e) => {
    if (e.key !== 'Escape') return;
    it.open = false;
    it.querySelector('summary').focus();
  });
}
