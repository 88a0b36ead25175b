// tests.js MODULE CASES..: tests the module under node: the cases in one process, slices of a search, limits of memory and
// stack, and the host's list of functions. The last line is 'N passed, M failed'.
'use strict';
const fs = require('fs'), path = require('path');
const TOP = path.join(__dirname, '../..');
const {Host, REFUSED, run_program} = require(`${TOP}/web/host.js`);
const {run_cases} = require('./cases.js'), {compare_slices} = require('./slices.js');
const {grow_stack, refuse_memory} = require('./limits.js'), {host_faults} = require('./host.js');

const MOST_LEFT_OUT = 60;
const sums = {passed: 0, failed: 0};
function count(name, {passed, failed}) {
  for (const it of failed) console.log(`failed: ${name}: ${it}`);
  console.log(`${name}: ${passed} passed, ${failed.length} failed`);
  sums.passed += passed;
  sums.failed += failed.length;
}
const check = (name, faults) => count(name, {passed: faults.length ? 0 : 1, failed: faults});

const lines_of = (file) => fs.readFileSync(file, 'utf8').split('\n').filter((it) => it && it[0] !== '#');
const left_out = lines_of(`${__dirname}/left_out`).map((it) => it.replace(/: [^:]*$/, ''));
const scripts = (name) => `${TOP}/examples/${name}/script.json`;

// Compares the functions that the host has with those that a module may import.
function check_imports() {
  const known = lines_of(`${TOP}/web/imports.txt`), here = [...Object.keys(new Host([], {}).functions()), ...REFUSED];
  const differ = [...known.filter((it) => !here.includes(it)), ...here.filter((it) => !known.includes(it))];
  check('imports', differ.map((it) => `${it} is only in web/imports.txt or only in web/host.js`));
}

// Has a case make a file that it doesn't expect: its run must fail.
function check_files(cases, run) {
  const folder = cases.find((it) => fs.existsSync(`${it}/after`) && !fs.existsSync(`${it}/runs`));
  const {failed} = run_cases([folder], [], (...more) => {
    const done = run(...more);
    return {...done, files: {...done.files, another: new Uint8Array(1)}};
  });
  check('files', failed.length === 1 && failed[0].endsWith(': file another') ? [] : [`a file that no case expects: ${failed}`]);
}

// Words whose memory or stack ends early, and how many pages the limits of memory are apart.
const LIMITED = [[['explain', 'script.json', '--json'], 1], [['timeline', 'script.json', 'run.html'], 5], [['walk', 'script.json'], 5],
  [['explore', 'script.json', '--runs', '50', '--threads', '1', '--json'], 9]];

// Has memory and stack end early for some subcommands: no answer may be wrong.
function check_limits(bytes) {
  const files = {'script.json': fs.readFileSync(scripts('severed_link'))}, input = Buffer.from('rcont\nback 3\nshow row 2\n'), failed = [];
  for (const [words, apart] of LIMITED) {
    const memory = refuse_memory(bytes, run_program, words, files, input, apart);
    const stack = grow_stack(bytes, run_program, words, files, input);
    if (memory.wrong || memory.trap || !memory.fault) failed.push(`memory, ${words[0]}: ${JSON.stringify(memory)}`);
    if (stack.wrong || !stack.trap) failed.push(`stack, ${words[0]}: ${JSON.stringify(stack)}`);
  }
  count('memory and stack', {passed: 2 * LIMITED.length - failed.length, failed});
}

function main([module_path, ...cases]) {
  const bytes = fs.readFileSync(module_path), module_ = new WebAssembly.Module(bytes);
  const run = (...more) => run_program(module_, ...more);
  process.env.MODULE = module_path;
  check_imports();
  check('host', host_faults());
  check('left_out', left_out.length > MOST_LEFT_OUT ? [`${left_out.length} runs, but at most ${MOST_LEFT_OUT} may be`] : []);
  check_files(cases, run);
  const ran = run_cases(cases, left_out, run);
  count('cases', ran);
  check('names in left_out', ran.unknown.map((it) => `${it} is no run`));
  const stories = fs.readdirSync(`${TOP}/examples`).map(scripts).filter((it) => fs.existsSync(it));
  count('slices', compare_slices(stories, run));
  check_limits(bytes);
  console.log(`${sums.passed} passed, ${sums.failed} failed`);
  return sums.failed ? 1 : 0;
}

process.exitCode = main(process.argv.slice(2));
