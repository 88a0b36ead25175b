#!/usr/bin/env node
// prog.js WORDS..: runs the program in WebAssembly under node, with these words, over the files that the words name.
// MODULE names the module; else it is the one that tools/web/module.py finds or makes. Status 69 where there is none, 70 where
// the program stops by a trap, else the program's.
'use strict';
const fs = require('fs'), path = require('path'), {execFileSync} = require('child_process');
const {Files, byte_name, run_program} = require(path.join(__dirname, '../../web/host.js'));
const FAULT = 1, UNAVAILABLE = 69, STOPPED = 70;
const READERS = ['walk', 'replay', 'dap', '-'];

const find = () => execFileSync(path.join(__dirname, 'module.py'), {stdio: ['ignore', 'pipe', 'inherit'], encoding: 'utf8'}).trim();

// Returns what may be the name of a file: each word, and what follows its first `=`.
const names_in = (words) => words.flatMap((it) => [it, it.slice(it.indexOf('=') + 1)]).filter((it) => it);

const is_folder = (it) => fs.existsSync(it) && fs.statSync(it).isDirectory();
const folders_of = (words) => names_in(words).flatMap((it) => [it, path.dirname(it)]).filter(is_folder);

function files_of(words) {
  const named = names_in(words).filter((it) => fs.existsSync(it) && fs.statSync(it).isFile());
  return Object.fromEntries(named.map((it) => [it, fs.readFileSync(it)]));
}

// Writes the files that the run has made or changed, under the names that the words have, since the file system may know
// links in them.
function write_changed(words, before, after) {
  const files = new Files(before, [], process.cwd()), path_of = (name) => files.path(byte_name(name));
  const names = new Map(names_in(words).map((it) => [path_of(it), it]));
  for (const [name, bytes] of Object.entries(after)) {
    const was = files.all.get(path_of(name));
    if (!was || Buffer.compare(was.bytes(), bytes) !== 0) fs.writeFileSync(names.get(path_of(name)) || name, bytes);
  }
}

function write_all(fd, bytes) {
  for (let at = 0; at < bytes.length;) at += fs.writeSync(fd, bytes, at);
}

// Writes the standard output, and returns the status. That its reader has ended is no fault.
function write_out(bytes, status) {
  try {
    write_all(1, bytes);
  } catch (error) {
    if (error.code === 'EPIPE') return status;
    console.error('fault session 2');
    return FAULT;
  }
  return status;
}

// Returns the compiled module, or null where there is none.
function find_module() {
  try {
    return new WebAssembly.Module(fs.readFileSync(process.env.MODULE || find()));
  } catch (error) {
    if (!error.status) console.error(`prog.js: ${error.message}`);
    return null;
  }
}

// Returns what the program's run results in, or null where it stops by a trap.
function run(module_, words, files, input) {
  try {
    return run_program(module_, words, files, input, {folders: folders_of(words), here: process.cwd()});
  } catch (error) {
    console.error(`prog.js: the program stopped: ${error.message}`);
    return null;
  }
}

// Runs the words, and returns the status. A file that can't be read or written is the fault that the native program reports.
function run_words(module_, words) {
  try {
    const files = files_of(words), input = words.some((it) => READERS.includes(it)) ? fs.readFileSync(0) : undefined;
    const done = run(module_, words, files, input);
    if (!done) return STOPPED;
    write_changed(words, files, done.files);
    write_all(2, done.err);
    return write_out(done.out, done.status);
  } catch (error) {
    if (!error.syscall) throw error;
    console.error('fault file');
    return FAULT;
  }
}

function main(words) {
  const module_ = find_module();
  return module_ ? run_words(module_, words) : UNAVAILABLE;
}

process.exitCode = main(process.argv.slice(2));
