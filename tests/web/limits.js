// Has the memory of the module, or its stack, end early: each answer is then the right one, a fault of memory that leaves
// the files, or a trap.
'use strict';
const MEMORY = 5, GLOBALS = 6, I64 = 0x7e, I64_CONST = 0x42, FAULT = /^fault memory$/m;

// Reads a number of a module, and returns it and where it ends.
function number_at(bytes, start) {
  let value = 0, shift = 0, at = start;
  for (; bytes[at] & 0x80; at += 1, shift += 7) value |= (bytes[at] & 0x7f) << shift;
  return [value | bytes[at] << shift, at + 1];
}

function written(number) {
  const out = [];
  for (let left = number; left > 0x7f; left >>>= 7) out.push(left & 0x7f | 0x80);
  return [...out, number >>> 7 * out.length];
}

// Returns a positive number as a signed one is written.
function signed(number) {
  const out = written(number);
  return out[out.length - 1] & 0x40 ? [...out.slice(0, -1), out[out.length - 1] | 0x80, 0] : out;
}

// Returns the module with another text of a section, which a function makes of the old one.
function with_section(bytes, kind, rewrite) {
  for (let at = 8; at < bytes.length;) {
    const [length, start] = number_at(bytes, at + 1), end = start + length;
    if (bytes[at] === kind) {
      const text = rewrite(bytes.subarray(start, end));
      return Buffer.concat([bytes.subarray(0, at), Buffer.from([kind, ...written(text.length)]), text, bytes.subarray(end)]);
    }
    at = end;
  }
  throw new Error(`the module has no section ${kind}`);
}

// Returns the module with a limit of pages, or the least of them without one.
function with_pages(bytes, more) {
  return with_section(bytes, MEMORY, (text) => {
    const [least] = number_at(text, 2);
    return Buffer.from([1, 1, ...written(least), ...written(least + more)]);
  });
}

// Returns the module with a stack of some bytes: its first global is where the stack starts.
function with_stack(bytes, size) {
  return with_section(bytes, GLOBALS, (text) => {
    const [, start] = number_at(text, 0), [, end] = number_at(text, start + 3);
    if (text[start] !== I64 || text[start + 2] !== I64_CONST) throw new Error('the first global is no stack');
    return Buffer.concat([text.subarray(0, start + 3), Buffer.from(signed(size)), text.subarray(end)]);
  });
}

const same_bytes = (one, other) => Buffer.compare(Buffer.from(one), Buffer.from(other)) === 0;
const are_same_files = (one, other) => Object.keys(one).length === Object.keys(other).length
  && Object.keys(one).every((name) => other[name] && same_bytes(one[name], other[name]));
const same = (one, other) => one.status === other.status && same_bytes(one.out, other.out) && same_bytes(one.err, other.err)
  && are_same_files(one.files, other.files);

// Returns whether an error is the trap of an address outside of the memory, as node words it. Every other one is wrong.
const is_trap = (error) => error instanceof WebAssembly.RuntimeError && error.message === 'memory access out of bounds';

// Returns what a run over some files results in, compared with the right answer: right, fault, trap or wrong.
function kind_of(run, right, files) {
  let done;
  try {
    done = run();
  } catch (error) {
    return is_trap(error) ? 'trap' : 'wrong';
  }
  if (same(done, right)) return 'right';
  const is_fault = done.status !== 0 && FAULT.test(Buffer.from(done.err).toString() + Buffer.from(done.out).toString());
  return is_fault && are_same_files(done.files, files) ? 'fault' : 'wrong';
}

// Runs some words with limits of memory, from none more than at the start up to the one that suffices, some pages apart.
// Returns the count of each kind of answer.
function refuse_memory(bytes, run, words, files, input, apart) {
  const right = run(new WebAssembly.Module(bytes), words, files, input), counts = {right: 0, fault: 0, trap: 0, wrong: 0};
  for (let more = 0; !counts.right; more += apart) {
    const module_ = new WebAssembly.Module(with_pages(bytes, more));
    counts[kind_of(() => run(module_, words, files, input), right, files)] += 1;
  }
  return counts;
}

// Runs some words with ever larger stacks of the module, up to one that suffices. Returns the count of each kind of answer.
function grow_stack(bytes, run, words, files, input) {
  const right = run(new WebAssembly.Module(bytes), words, files, input), counts = {right: 0, fault: 0, trap: 0, wrong: 0};
  for (let size = 256; !counts.right; size *= 2) {
    const module_ = new WebAssembly.Module(with_stack(bytes, size));
    counts[kind_of(() => run(module_, words, files, input), right, files)] += 1;
  }
  return counts;
}

module.exports = {refuse_memory, grow_stack, with_pages};
