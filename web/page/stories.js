// ---- examples, and what a first visit shows

const stories = embedded('stories');

for (const {name} of stories) by_id('examples').insertAdjacentHTML('beforeend', `<option>${plain(name)}</option>`);

// An arrow key chooses among the examples of the closed menu. Enter opens the one that is chosen, and so does leaving the menu.
// An open menu, which a click, Space, F4, or Alt and an arrow key opens, reports only what is chosen in the end.
let is_by_key = false;
function open_example() {
  const menu = by_id('examples'), story = stories.find(({name}) => name === menu.value);
  menu.value = '';
  is_by_key = false;
  if (!story) return false;
  set_script(story.script);
  by_id('story').textContent = story.look;
  return true;
}
function on_menu(e) {
  is_by_key = e.type === 'keydown' && !e.altKey && !['Enter', ' ', 'F4'].includes(e.key);
  if (e.key === 'Escape') e.target.value = '';
  if (e.key === 'Enter' && open_example()) e.preventDefault();
}
for (const type of ['keydown', 'mousedown']) by_id('examples').addEventListener(type, on_menu);
by_id('examples').addEventListener('change', () => is_by_key || open_example());
by_id('examples').addEventListener('blur', open_example);

// The three steps of a first visit: the bug, back from the end to what completed the FSYNC, and on.
const STEPS = {
  see: () => {
    show_pane('findings');
    const severed = findings.find((it) => it.kind === 'severed');
    if (severed) go_to_finding(severed);
  },
  watch: async () => {
    show_pane('walk');
    await ask('on 100');
    await ask('watch row 4');
    await ask('rcont');
    await ask('show row 2');
  },
  on: async () => {
    show_pane('walk');
    await ask('on 1');
    await ask('show row 2');
  },
};
for (const it of all_of('[data-step]')) {
  it.addEventListener('click', () => {
    if (!program) {
      show_pane('findings');
      by_id('hint').textContent = absent;
      return;
    }
    it.classList.add('done');
    STEPS[it.dataset.step]();
  });
}
by_id('leave').addEventListener('click', () => {
  by_id('visit').hidden = true;
  text.focus();
});
