'use strict';
// Runs the program, which is a WebAssembly module: the part of a C library that it calls, over files in memory.
// Addresses and sizes are 64-bit numbers (BigInt). Names of files are texts of one character a byte.

const ENOENT = 2, EBADF = 9, EAGAIN = 11, EEXIST = 17, ENOTDIR = 20, EISDIR = 21, EINVAL = 22, ENOSYS = 38;
const O_ACCMODE = 3, O_CREAT = 0x40, O_EXCL = 0x80, O_TRUNC = 0x200, O_APPEND = 0x400;
const S_IFREG = 0x8000, S_IFDIR = 0x4000, S_IFCHR = 0x2000, STATX_SIZE = 256, STATX_BASIC = 0x7ff;
const encoder = new TextEncoder(), decoder = new TextDecoder();

// What the program calls, but what a page doesn't have: sockets, threads, signals. Each call fails.
const REFUSED = ['__sysv_signal', 'accept4', 'bind', 'listen', 'pthread_attr_destroy', 'pthread_attr_init', 'pthread_attr_setguardsize',
  'pthread_create', 'pthread_detach', 'pthread_join', 'recv', 'send', 'setsockopt', 'socket', 'syscall'];

class Exit {
  constructor(status) {
    this.status = status;
  }
}

const name_of = (bytes) => Array.from(bytes, (it) => String.fromCharCode(it)).join('');
const bytes_of = (name) => Uint8Array.from(name, (it) => it.charCodeAt(0));
const encoded = (word) => (typeof word === 'string' ? encoder.encode(word) : word);
const byte_name = (name) => name_of(encoded(name));

// The bytes of a file, which can grow.
class StoredFile {
  constructor(bytes = new Uint8Array(0)) {
    this.room = bytes;
    this.length = bytes.length;
  }

  write(at, bytes) {
    const end = at + bytes.length;
    if (end > this.room.length) {
      const wider = new Uint8Array(Math.max(2 * this.room.length, end, 4096));
      wider.set(this.bytes());
      this.room = wider;
    }
    this.room.set(bytes, at);
    this.length = Math.max(this.length, end);
  }

  cut(length) {
    const kept = this.bytes().slice(0, length);
    this.room = new Uint8Array(length);
    this.room.set(kept);
    this.length = length;
  }

  bytes() {
    return this.room.subarray(0, this.length);
  }
}

// A folder tree, by its files, whose paths are from the top. A folder is there if a file in it was, or as the current one,
// which is below the top, so that `../a` and `/a` are other files than `a`.
class Files {
  constructor(files, folders = [], here = '/here/now') {
    this.all = new Map();
    this.here = this.path(byte_name(here));
    this.folders = new Set(['']);
    for (const it of ['.', ...folders]) this.add_folder(this.path(byte_name(it)));
    for (const [name, bytes] of Object.entries(files)) this.put(this.path(byte_name(name)), new StoredFile(bytes));
  }

  // Returns a path from the top, without `.` and `..`.
  path(name) {
    const parts = [];
    for (const part of (name.startsWith('/') ? name : `${this.here}/${name}`).split('/')) {
      if (part === '..') parts.pop();
      else if (part && part !== '.') parts.push(part);
    }
    return parts.join('/');
  }

  // Returns the name of a path: from the current folder where it is in there, else from the top.
  name(path) {
    const start = this.here && `${this.here}/`;
    return decoder.decode(bytes_of(path.startsWith(start) ? path.slice(start.length) : `/${path}`));
  }

  folder_of(path) {
    return path.includes('/') ? path.slice(0, path.lastIndexOf('/')) : '';
  }

  add_folder(path) {
    for (let it = path; it; it = this.folder_of(it)) this.folders.add(it);
  }

  put(path, file) {
    this.all.set(path, file);
    this.add_folder(this.folder_of(path));
  }

  // Returns why no file of this path can be opened, or 0.
  fault(name, path) {
    if (!name) return ENOENT;
    if (this.all.has(this.folder_of(path))) return ENOTDIR;
    return this.folders.has(this.folder_of(path)) ? 0 : ENOENT;
  }

  made() {
    return Object.fromEntries([...this.all].map(([path, file]) => [this.name(path), file.bytes()]));
  }
}

// One run of the program: its words, its files, and what it has opened.
class Host {
  constructor(words, files, input, {folders, here} = {}) {
    this.words = ['uringwalk', ...words].map(encoded);
    this.files = new Files(files, folders, here);
    this.out = new StoredFile();
    this.err = new StoredFile();
    this.opened = new Map([[0, {file: new StoredFile(input), at: 0}], [1, {file: this.out, at: 0}], [2, {file: this.err, at: 0}]]);
    this.errno = 0;
    this.exports = null;
  }

  fail(error) {
    this.errno = error;
    return -1;
  }

  memory(address, count) {
    return new Uint8Array(this.exports.memory.buffer, Number(address), Number(count));
  }

  view(address, count) {
    return new DataView(this.exports.memory.buffer, Number(address), count);
  }

  name_at(address) {
    const all = new Uint8Array(this.exports.memory.buffer), start = Number(address);
    return name_of(all.subarray(start, all.indexOf(0, start)));
  }

  // Returns what a call does with an open file, or -1.
  with_file(fd, call) {
    const it = this.opened.get(fd);
    return it && it.file ? call(it) : BigInt(this.fail(EBADF));
  }

  write(fd, address, count) {
    return this.with_file(fd, (it) => {
      if (it.appends) it.at = it.file.length;
      it.file.write(it.at, this.memory(address, count));
      it.at += Number(count);
      return count;
    });
  }

  read(fd, address, count) {
    return this.with_file(fd, (it) => {
      const bytes = it.file.bytes().subarray(it.at, it.at + Number(count));
      this.memory(address, bytes.length).set(bytes);
      it.at += bytes.length;
      return BigInt(bytes.length);
    });
  }

  open(address, flags) {
    const name = this.name_at(address), path = this.files.path(name), fault = this.files.fault(name, path);
    const is_there = this.files.all.has(path), is_folder = this.files.folders.has(path);
    if (fault) return this.fail(fault);
    if (is_folder && flags & (O_ACCMODE | O_CREAT)) return this.fail(EISDIR);
    if (is_there && flags & O_CREAT && flags & O_EXCL) return this.fail(EEXIST);
    if (!is_there && !is_folder && !(flags & O_CREAT)) return this.fail(ENOENT);
    if (!is_there && !is_folder) this.files.put(path, new StoredFile());
    const file = this.files.all.get(path) || null;
    if (file && flags & O_TRUNC) file.cut(0);
    let fd = 3;
    while (this.opened.has(fd)) fd += 1;
    this.opened.set(fd, {file, at: 0, appends: Boolean(flags & O_APPEND)});
    return fd;
  }

  lseek(fd, offset, whence) {
    return this.with_file(fd, (it) => {
      const at = Number(offset) + [0, it.at, it.file.length][whence];
      if (!(at >= 0)) return BigInt(this.fail(EINVAL));
      it.at = at;
      return BigInt(at);
    });
  }

  statx(fd, address, flags, mask, to) {
    const name = this.name_at(address), path = this.files.path(name);
    const file = name ? this.files.all.get(path) : (this.opened.get(fd) || {}).file, is_folder = name && this.files.folders.has(path);
    if (!file && !is_folder) return this.fail(ENOENT);
    const kind = is_folder ? S_IFDIR | 0o755 : (name || fd > 2 ? S_IFREG : S_IFCHR) | 0o644;
    this.memory(to, STATX_SIZE).fill(0);
    const stat = this.view(to, STATX_SIZE);
    stat.setUint32(0, STATX_BASIC, true);
    stat.setUint16(28, kind, true);
    stat.setBigUint64(40, BigInt(file ? file.length : 0), true);
    return 0;
  }

  realpath(address, to) {
    const name = this.name_at(address), path = this.files.path(name);
    if (!name || !(this.files.all.has(path) || this.files.folders.has(path))) {
      this.fail(ENOENT);
      return 0n;
    }
    const bytes = bytes_of(`/${path}\0`), place = to || this.exports.allocate(BigInt(bytes.length));
    this.memory(place, bytes.length).set(bytes);
    return place;
  }

  unlink(address) {
    return this.files.all.delete(this.files.path(this.name_at(address))) ? 0 : this.fail(ENOENT);
  }

  rename(from, to) {
    const old = this.files.path(this.name_at(from)), name = this.name_at(to), path = this.files.path(name);
    const file = this.files.all.get(old), fault = file ? this.files.fault(name, path) : ENOENT;
    if (fault) return this.fail(fault);
    if (this.files.folders.has(path)) return this.fail(EISDIR);
    this.files.all.delete(old);
    this.files.put(path, file);
    return 0;
  }

  // Writes as much of a word as fits. Returns its length, -1 where there is none, or -2 where it doesn't fit.
  rattle_arg(index, address, count) {
    const word = this.words[Number(index)];
    if (!word) return -1n;
    const part = word.subarray(0, Number(count));
    this.memory(address, part.length).set(part);
    return part.length < word.length ? -2n : BigInt(word.length);
  }

  clock_gettime(clock, address) {
    const now = performance.now(), time = this.view(address, 16);
    time.setBigInt64(0, BigInt(Math.floor(now / 1000)), true);
    time.setBigInt64(8, BigInt(Math.floor(now % 1000 * 1e6)), true);
    return 0;
  }

  // Returns the functions by the names that the module imports.
  functions() {
    const own = ['write', 'read', 'open', 'lseek', 'statx', 'realpath', 'unlink', 'rename', 'rattle_arg', 'clock_gettime'];
    const all = {
      close: (fd) => (this.opened.delete(fd) ? 0 : this.fail(EBADF)),
      isatty: () => 0,
      fsync: () => 0,
      sched_yield: () => 0,
      sysconf: () => BigInt(this.fail(EINVAL)),
      rattle_errno: () => this.errno,
      rattle_set_errno: (error) => {
        this.errno = error;
      },
      pthread_self: () => 1n,
      sched_getaffinity: () => this.fail(EINVAL),
      _exit: (status) => {
        throw new Exit(status);
      },
      abort: () => {
        throw new Error('it called abort');
      },
    };
    for (const name of own) all[name] = this[name].bind(this);
    return all;
  }
}

// Returns a function for each import of a module. A refused one returns -1, as a number of the kind that its type has.
function imports_for(host, module_) {
  const all = host.functions(), env = {};
  for (const {name} of WebAssembly.Module.imports(module_)) {
    if (!all[name] && !REFUSED.includes(name)) throw new Error(`the program calls ${name}, which is unknown here`);
    env[name] = all[name] || refusal(host, name);
  }
  return env;
}

// These return 64-bit numbers; the others 32-bit ones. A thread isn't created for lack of resources.
const WIDE = ['__sysv_signal', 'recv', 'send', 'syscall'];
const refusal = (host, name) => () => {
  if (name === 'pthread_create') return EAGAIN;
  const failed = host.fail(ENOSYS);
  return WIDE.includes(name) ? BigInt(failed) : failed;
};

// Runs the program with these words over these files (bytes by name). `places` has folders that have none of them, and the
// current folder. Returns its status, what it printed, and its files. Throws where it stops by a trap, as at the end of the stack.
function run_program(module_, words, files = {}, input = new Uint8Array(0), places = {}) {
  const host = new Host(words, files, input, places);
  host.exports = new WebAssembly.Instance(module_, {env: imports_for(host, module_)}).exports;
  let status;
  try {
    status = host.exports.main(0, 0n);
  } catch (error) {
    if (!(error instanceof Exit)) throw error;
    status = error.status;
  }
  return {status, out: host.out.bytes(), err: host.err.bytes(), files: host.files.made()};
}

if (typeof module !== 'undefined') module.exports = {run_program, imports_for, byte_name, Files, Host, REFUSED};
