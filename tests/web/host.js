// Tests what the host does with files and words where the cases don't reach, on a memory without a program.
'use strict';
const {Host} = require('../../web/host.js');
const EBADF = 9, EAGAIN = 11, ENOENT = 2, ENOTDIR = 20, EISDIR = 21, EINVAL = 22;
const O_WRONLY = 1, O_CREAT = 0x40, O_EXCL = 0x80, O_TRUNC = 0x200, O_APPEND = 0x400, EEXIST = 17;
const NAME = 64n, OTHER = 256n, DATA = 512n, TO = 1024n;

// Returns a host over some files, with calls that take texts.
function made(files, words = [], places = {}) {
  const host = new Host(words, files, new Uint8Array(0), places), memory = {buffer: new ArrayBuffer(4096)}, all = host.functions();
  host.exports = {memory};
  const put = (text, at) => {
    Buffer.from(memory.buffer).write(`${text}\0`, Number(at), 'latin1');
    return at;
  };
  const open = (name, flags) => all.open(put(name, NAME), flags);
  const write = (fd, text) => all.write(fd, put(text, DATA), BigInt(text.length));
  const read = (fd, count) => {
    const got = all.read(fd, TO, BigInt(count));
    return got < 0n ? got : Buffer.from(memory.buffer, Number(TO), Number(got)).toString();
  };
  const content = (name) => Buffer.from((host.files.made()[name] || 'none')).toString();
  return {...all, host, put, open, write, read, content, error: () => all.rattle_errno()};
}
const bytes = (text) => Buffer.from(text);

// What is called, as pairs of what it results in and what it should.
const TESTS = {
  'append writes at the end': () => {
    const it = made({a: bytes('one')}), fd = it.open('a', O_WRONLY | O_APPEND);
    it.lseek(fd, 0n, 0);
    it.write(fd, 'two');
    return [it.content('a'), 'onetwo'];
  },
  'truncation empties a file': () => {
    const it = made({a: bytes('one')});
    it.write(it.open('a', O_WRONLY | O_TRUNC), 'x');
    return [it.content('a'), 'x'];
  },
  'a file that must be new and is there is refused': () => {
    const it = made({a: bytes('one')});
    return [[it.open('a', O_WRONLY | O_CREAT | O_EXCL), it.error()], [-1, EEXIST]];
  },
  'a closed file is read no more': () => {
    const it = made({a: bytes('one')}), fd = it.open('a', 0);
    return [[it.read(fd, 2), it.close(fd), it.read(fd, 2), it.error(), it.close(fd)], ['on', 0, -1n, EBADF, -1]];
  },
  'a place after the end is filled with zeros': () => {
    const it = made({}), fd = it.open('a', O_WRONLY | O_CREAT);
    it.lseek(fd, 2n, 0);
    it.write(fd, 'x');
    return [it.content('a'), '\0\0x'];
  },
  'a negative place is refused': () => {
    const it = made({a: bytes('one')}), fd = it.open('a', 0);
    return [[it.lseek(fd, -1n, 0), it.error(), it.lseek(fd, -1n, 2), it.read(fd, 9)], [-1n, EINVAL, 2n, 'e']];
  },
  'two dots lead up': () => {
    const it = made({'b/a': bytes('one')});
    return [it.read(it.open('b/../b/./a', 0), 9), 'one'];
  },
  'names that lead to other folders are other files': () => {
    const it = made({a: bytes('one'), '../a': bytes('two'), '/a': bytes('three')});
    const read = (name) => it.read(it.open(name, 0), 9);
    return [['a', '../a', '/a', '/here/a', '../now/a', '../../../a'].map(read), ['one', 'two', 'three', 'two', 'one', 'three']];
  },
  'a file keeps its name from the current folder, or from the top': () => {
    const it = made({}, [], {folders: ['b'], here: '/x/\u00e9'});
    for (const name of ['a', 'b/a', '../a', '/x/\u00e9/c', '/x/\u00e9d']) it.close(it.open(Buffer.from(name).toString('latin1'), O_WRONLY | O_CREAT));
    return [Object.keys(it.host.files.made()), ['a', 'b/a', '/x/a', 'c', '/x/\u00e9d']];
  },
  'two names of one file have one path': () => {
    const it = made({'b/a': bytes('one')}), name = (text) => {
      it.realpath(it.put(text, NAME), TO);
      return it.host.name_at(TO);
    };
    return [['b/a', '../now/b/a', '../b/a'].map(name), ['/here/now/b/a', '/here/now/b/a', '/here/now/b/a']];
  },
  'a file is no folder': () => {
    const it = made({a: bytes('one')});
    return [[it.open('a/b', 0), it.error(), it.open('c/b', 0), it.error()], [-1, ENOTDIR, -1, ENOENT]];
  },
  'a folder is not written': () => {
    const it = made({'b/a': bytes('one')});
    return [[it.open('b', O_WRONLY | O_CREAT), it.error()], [-1, EISDIR]];
  },
  'an unlinked file is gone': () => {
    const it = made({a: bytes('one')});
    return [[it.unlink(it.put('a', NAME)), it.open('a', 0), it.unlink(NAME), it.error()], [0, -1, -1, ENOENT]];
  },
  'a renamed file has its new name alone': () => {
    const it = made({a: bytes('one'), b: bytes('two')});
    return [[it.rename(it.put('a', NAME), it.put('b', OTHER)), it.content('b'), it.content('a')], [0, 'one', 'none']];
  },
  'a word that is too long is cut': () => {
    const it = made({}, ['explain']);
    return [[it.rattle_arg(1n, TO, 3n), it.rattle_arg(1n, TO, 7n), it.rattle_arg(2n, TO, 9n)], [-2n, 7n, -1n]];
  },
  'time does not go back': () => {
    const it = made({}), time = () => {
      it.clock_gettime(1, TO);
      return it.host.view(TO, 16).getBigInt64(0, true) * 1000000000n + it.host.view(TO, 16).getBigInt64(8, true);
    };
    const first = time();
    return [[first > 0n, time() >= first], [true, true]];
  },
};

const shown = (value) => JSON.stringify(value, (_, it) => (typeof it === 'bigint' ? `${it}n` : it));

// A module that imports what is refused, `pthread_create` as one that says its error itself.
function refusals() {
  const {imports_for} = require('../../web/host.js'), host = new Host([], {});
  const name = (text) => [text.length, ...Buffer.from(text)], named = ['pthread_create', 'socket', 'send'];
  const entries = named.flatMap((it) => [...name('env'), ...name(it), 0, 0]);
  const module_ = new WebAssembly.Module(Uint8Array.from([0, 0x61, 0x73, 0x6d, 1, 0, 0, 0, 1, 4, 1, 0x60, 0, 0, 2, entries.length + 1, named.length, ...entries]));
  const env = imports_for(host, module_);
  return [named.map((it) => env[it]()), [EAGAIN, -1, -1n]];
}

// Returns what the host does otherwise than it should.
function host_faults() {
  return Object.entries({...TESTS, 'what is refused says so': refusals}).flatMap(([name, test]) => {
    const [got, wanted] = test().map(shown);
    return got === wanted ? [] : [`${name}: ${got}, not ${wanted}`];
  });
}

module.exports = {host_faults};
