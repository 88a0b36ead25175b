// ---- opening: the program is compiled, and then what the editor has is checked: the script of the link, or the page's own

const LACKS = 'This browser lacks DecompressionStream: open the page in Chromium 103, Firefox 113, Safari 16.4 or a later one.';

// Says why there is no program, here and wherever it is asked for something.
function report_absence(why) {
  absent = why;
  report(why, true);
}

async function open_page() {
  show_pane('findings');
  if (is_narrow()) show_pane('script');
  show_searching(false);
  share('');
  set_script(embedded('first_script'));
  const own = text.value;
  keep_safe();
  if (typeof DecompressionStream === 'undefined') {
    report_absence(LACKS);
    return;
  }
  const linked = await linked_script();
  if (linked !== null) {
    set_script(linked, text.value !== own);
    keep_safe();
  }
  program = await compile_program();
  caller = new Caller();
  await check_script();
  document.body.dataset.opened = Math.round(performance.now());
}
open_page().catch((error) => report_absence(`This browser can't run the program: ${error.message}`));
