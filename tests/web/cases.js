// Reads the end-to-end cases, as tests/run says what they are, and runs them on the module in one process.
'use strict';
const fs = require('fs'), os = require('os'), path = require('path'), {spawnSync} = require('child_process');

// What says how a case is run, and isn't one of its files.
const OWN = ['args', 'stdin', 'stdin-from', 'stdout', 'stdout-to', 'stderr', 'status', 'check', 'program', 'prepare', 'runs', 'after'];
const NONE = Buffer.alloc(0);

function folders_in(folder, below = '') {
  const found = fs.readdirSync(path.join(folder, below), {withFileTypes: true}).filter((it) => it.isDirectory());
  return found.flatMap(({name}) => [path.join(below, name), ...folders_in(folder, path.join(below, name))]);
}

// Returns the files of a folder, without links, which the module hasn't: a run that needs one is left out.
function files_in(folder, below = '') {
  const found = {};
  for (const it of fs.readdirSync(path.join(folder, below), {withFileTypes: true})) {
    const name = path.join(below, it.name);
    if (it.isDirectory()) {
      if (name !== 'after') Object.assign(found, files_in(folder, name));
    } else if (it.isFile()) found[name] = fs.readFileSync(path.join(folder, name));
    else if (!it.isSymbolicLink()) throw new Error(`${name} is a pipe or a device`);
  }
  return found;
}

function replaced(bytes, old, now) {
  const at = bytes.indexOf(old);
  if (at < 0 || bytes.indexOf(old, at + 1) >= 0) throw new Error(`a change of ${old}`);
  return Buffer.concat([bytes.subarray(0, at), Buffer.from(now), bytes.subarray(at + Buffer.byteLength(old))]);
}

// How each line of a table of runs changes the files of its run.
const LINES = {
  change: (files, text) => {
    const name = text.split(' ', 1)[0], rest = text.slice(name.length + 1), at = rest.indexOf(' =>');
    files[name] = replaced(files[name], rest.slice(0, at), rest.slice(at + 3).replace(/^ /, ''));
  },
  bytes: (files, text) => {
    const [name, at, hex] = text.split(' '), more = Buffer.from(hex, 'hex'), start = Number(at);
    const whole = Buffer.alloc(Math.max(files[name].length, start + more.length));
    files[name].copy(whole);
    more.copy(whole, start);
    files[name] = whole;
  },
  cut: (files, text) => {
    const [name, count] = text.split(' ');
    files[name] = files[name].subarray(0, Number(count));
  },
  args: (files, text) => {
    files.args = Buffer.from(`${text.split(' ').join('\n')}\n`);
  },
  status: (files, text) => {
    files.status = Buffer.from(text);
  },
};
for (const name of ['stdin', 'stdout', 'stderr']) {
  LINES[name] = (files, text, is_first) => {
    files[name] = Buffer.concat([is_first ? NONE : files[name], Buffer.from(`${text}\n`)]);
  };
}

// Applies the lines of a run to the files of its case.
function changed(files, lines) {
  const made = {...files}, seen = new Set();
  for (const line of lines) {
    const word = line.split(' ', 1)[0];
    if (!LINES[word]) throw new Error(`a line ${line}`);
    LINES[word](made, line.slice(word.length + 1), !seen.has(word));
    seen.add(word);
  }
  return made;
}

// Returns the runs of a case, each with its name and its files.
function runs_of(folder) {
  const files = files_in(folder);
  if (!files.runs) return [{name: '', files}];
  const common = [], runs = [];
  for (const line of files.runs.toString().split('\n').filter((it) => it.trim() && !it.startsWith('#'))) {
    if (line.startsWith('run ')) runs.push({name: line.slice(4), lines: [...common]});
    else (runs.length ? runs[runs.length - 1].lines : common).push(line);
  }
  return runs.map(({name, lines}) => ({name, files: changed(files, lines)}));
}

function words_of({args = NONE}) {
  const lines = args.length ? args.toString('latin1').replace(/\n$/, '').split('\n') : [];
  return lines.map((it) => Buffer.from(it, 'latin1'));
}

// The program as a command, for the scripts of cases.
const COMMAND = path.join(__dirname, '../../tools/web/prog.js');

// Runs a script of a case in a folder, and returns whether its status is 0.
function runs_well(script, folder) {
  const how = {cwd: folder, stdio: 'ignore', timeout: 60000, env: {...process.env, program: COMMAND}};
  return spawnSync('bash', [`./${script}`], how).status === 0;
}

function write_files(folder, files) {
  for (const [name, bytes] of Object.entries(files)) {
    fs.mkdirSync(path.join(folder, path.dirname(name)), {recursive: true});
    fs.writeFileSync(path.join(folder, name), bytes);
  }
}

// Calls a function in a folder of its own, which has some files.
function in_room(files, call) {
  const room = fs.mkdtempSync(path.join(os.tmpdir(), 'uringwalk-'));
  try {
    write_files(room, files);
    return call(room);
  } finally {
    fs.rmSync(room, {recursive: true, force: true});
  }
}

// Returns the files and folders of a run, after its script has made large ones.
function prepared(folder, files) {
  if (!files.prepare) return {files, folders: folders_in(folder)};
  return in_room(files, (room) => {
    if (!runs_well('prepare', room)) throw new Error('its prepare fails');
    return {files: files_in(room), folders: folders_in(room)};
  });
}

// Returns what a run reads as its standard input.
const input_of = (files) => (files['stdin-from'] ? files[files['stdin-from'].toString().trim()] : files.stdin) || NONE;

// Returns whether a run's own script takes what the run wrote.
function is_taken(files, done) {
  return in_room({...files, ...done.files, 'out.txt': done.out, 'err.txt': done.err}, (room) => runs_well('check', room));
}

const is_other = (one, other = NONE) => Buffer.compare(Buffer.from(one), other) !== 0;

// Returns which files after a run aren't as the case's folder `after` has them: those differ, or others were made or removed.
function wrong_files(folder, given, made) {
  const expected = path.join(folder, 'after');
  if (!fs.existsSync(expected)) return [];
  const after = files_in(expected), names = new Set([...Object.keys(given), ...Object.keys(after)]);
  const differ = Object.entries(after).filter(([name, bytes]) => !made[name] || is_other(made[name], bytes)).map(([name]) => name);
  const others = [...Object.keys(made).filter((it) => !names.has(it)), ...[...names].filter((it) => !made[it])];
  return [...new Set([...differ, ...others])].map((it) => `file ${it}`);
}

// Returns what is expected of a run and isn't so.
function wrong(folder, files, given, done) {
  const found = wrong_files(folder, given, done.files);
  if (done.status !== Number(files.status || 0)) found.push(`status ${done.status}`);
  if (files.check ? !is_taken(files, done) : is_other(done.out, files.stdout)) found.push('standard output');
  if (is_other(done.err, files.stderr)) found.push(`standard error ${Buffer.from(done.err).toString().slice(0, 80)}`);
  return found;
}

// Runs one run of a case by a function that takes words, files, input and places, and returns what is wrong.
function faults_of(folder, files, run) {
  try {
    const {files: all, folders} = prepared(folder, files);
    const given = Object.fromEntries(Object.entries(all).filter(([it]) => !OWN.includes(it)));
    return wrong(folder, all, given, run(words_of(all), given, input_of(all), {folders}));
  } catch (error) {
    return [error.message];
  }
}

// Runs each case of some folders, but runs that are left out, as `CASE` or `CASE/RUN`, and cases of another program. Returns how
// many runs passed, what failed, and which names are those of no run.
function run_cases(folders, left_out, run) {
  const sums = {passed: 0, failed: []}, unknown = new Set(left_out);
  for (const folder of folders.filter((it) => !fs.existsSync(`${it}/program`))) {
    for (const {name, files} of runs_of(folder)) {
      const whole = path.join(path.basename(folder), name);
      if (unknown.delete(whole)) continue;
      const found = faults_of(folder, files, run);
      if (found.length) sums.failed.push(`${whole}: ${found.join('; ')}`);
      else sums.passed += 1;
    }
  }
  return {...sums, unknown: [...unknown]};
}

module.exports = {run_cases, runs_of, words_of};
