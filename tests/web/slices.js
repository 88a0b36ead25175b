// Compares what slices of a search add up to with what one search reports.
'use strict';
const fs = require('fs');
const KINDS = [null, 'canceled', 'too-late', 'lost-wake-up', 'failed', 'expired'], RUNS = 300, SLICE = 37;

const sorted = (seen) => JSON.stringify(Object.entries(seen).sort());
const FOUND = ['run', 'moment', 'kind', 'text', 'length', 'shrunk', 'schedule'];
const found_in = (part) => JSON.stringify(FOUND.map((key) => part[key]));

// Adds the slices up to the first that finds something.
function add_slices(search) {
  const sum = {runs: 0, events: 0, seen: {}, hit: null};
  for (let first = 0; first < RUNS && !sum.hit; first += SLICE) {
    const part = search('--first', `${first}`, '--runs', `${Math.min(SLICE, RUNS - first)}`);
    sum.runs += part.runs;
    sum.events += part.events;
    for (const {kind, runs} of part.seen) sum.seen[kind] = (sum.seen[kind] || 0) + runs;
    if (part.found) sum.hit = part;
  }
  return sum;
}

function are_same(whole, sum) {
  const seen = Object.fromEntries(whole.seen.map(({kind, runs}) => [kind, runs])), is_found = Boolean(sum.hit);
  return whole.found === is_found && whole.runs === sum.runs && whole.events === sum.events && sorted(seen) === sorted(sum.seen)
    && (!is_found || found_in(whole) === found_in(sum.hit));
}

// Compares the searches of some scripts, by a function that runs the program. Returns how many are the same, and which aren't.
function compare_slices(scripts, run) {
  const sums = {passed: 0, failed: []};
  for (const path of scripts) {
    for (const kind of KINDS) {
      const files = {'script.json': fs.readFileSync(path)}, words = ['explore', 'script.json', '--threads', '1', '--json'];
      if (kind) words.push('--kind', kind);
      const search = (...more) => JSON.parse(Buffer.from(run([...words, ...more], files).out).toString());
      if (are_same(search('--runs', `${RUNS}`), add_slices(search))) sums.passed += 1;
      else sums.failed.push(`slices of ${path}, ${kind || 'any fault'}`);
    }
  }
  return sums;
}

module.exports = {compare_slices};
