/* Fails the Nth allocation, read, write, sync, rename, open or path lookup of the program that it is preloaded into by
 * LD_PRELOAD (ld.so(8)). It belongs to the tests and to no crate.
 *
 *   FAULTS_WHAT    what is counted: allocation, or some of read, write, sync, rename, open, lookup, with commas between them
 *   FAULTS_N       the number of the call that fails, counted from the start of the process. Without it allocations are
 *                  counted from the line 'armed N' on standard error to the line 'disarmed'
 *   FAULTS_HOW     allocation: one (the Nth alone) or all (the Nth and each later one); others: eio, enospc, eintr, half
 *                  (a write takes half of its bytes), broken (the same, and each later write fails with EIO), kill (SIGKILL
 *                  before the call), torn (SIGKILL after half of a write)
 *   FAULTS_REPORT  the file to which 'reached K N' is written when the Nth call is reached, or 'missed K N' when the process
 *                  ends before; K is the number of calls counted so far
 *
 * An allocation is a malloc, calloc, posix_memalign or aligned_alloc, or a realloc to more than the size of the block
 * (malloc_usable_size(3)). A lookup is a statx or a realpath. Standard error is neither counted nor failed. */
#define _GNU_SOURCE
#include <dlfcn.h>
#include <errno.h>
#include <fcntl.h>
#include <malloc.h>
#include <signal.h>
#include <stdarg.h>
#include <stdatomic.h>
#include <stdbool.h>
#include <stdio.h>
#include <stdlib.h>
#include <string.h>
#include <sys/stat.h>
#include <sys/syscall.h>
#include <sys/uio.h>
#include <unistd.h>

enum what { ALLOCATION = 1, READ = 2, WRITE = 4, SYNC = 8, RENAME = 16, OPEN = 32, LOOKUP = 64 };
enum how { ONE, ALL, EIO_, ENOSPC_, EINTR_, HALF, BROKEN, KILL, TORN };

static const char *const whats[] = {"allocation", "read", "write", "sync", "rename", "open", "lookup"};
static const char *const hows[] = {"one", "all", "eio", "enospc", "eintr", "half", "broken", "kill", "torn"};

static int counted_kinds;        /* of enum what */
static enum how how;
static atomic_long number;       /* the call that fails, from 1 on; 0 for none */
static atomic_long count;        /* the calls since counting began */
static atomic_bool counting;
static atomic_bool reported;
static atomic_bool broken;       /* whether a write took half of its bytes, so that each later write fails */
static bool by_lines;            /* whether lines on standard error say when allocations are counted */

static void *(*next_malloc)(size_t);
static void *(*next_calloc)(size_t, size_t);
static void *(*next_realloc)(void *, size_t);
static int (*next_posix_memalign)(void **, size_t, size_t);
static void *(*next_aligned_alloc)(size_t, size_t);
static void (*next_free)(void *);
static ssize_t (*next_read)(int, void *, size_t);
static ssize_t (*next_pread)(int, void *, size_t, off_t);
static ssize_t (*next_readv)(int, const struct iovec *, int);
static ssize_t (*next_write)(int, const void *, size_t);
static ssize_t (*next_pwrite)(int, const void *, size_t, off_t);
static ssize_t (*next_writev)(int, const struct iovec *, int);
static int (*next_fsync)(int);
static int (*next_fdatasync)(int);
static int (*next_rename)(const char *, const char *);
static int (*next_renameat)(int, const char *, int, const char *);
static int (*next_renameat2)(int, const char *, int, const char *, unsigned);
static int (*next_open)(const char *, int, ...);
static int (*next_statx)(int, const char *, int, unsigned, struct statx *);
static char *(*next_realpath)(const char *, char *);

/* The memory for dlsym(3) itself while it looks up the next malloc. It is never freed. */
static char early[65536];
static size_t early_used;

static void *take_early(size_t size) {
  size_t aligned = (size + 15) & ~(size_t)15;
  if (aligned < size || aligned > sizeof early - early_used) return NULL;
  void *block = early + early_used;
  early_used += aligned;
  return block;
}

static bool is_early(const void *block) {
  return (const char *)block >= early && (const char *)block < early + sizeof early;
}

/* Writes the report by system calls, so that nothing here is counted. */
static void report(const char *word) {
  const char *path = getenv("FAULTS_REPORT");
  if (path == NULL || atomic_exchange(&reported, true)) return;
  char line[80];
  int size = snprintf(line, sizeof line, "%s %ld %ld\n", word, atomic_load(&count), atomic_load(&number));
  long file = syscall(SYS_openat, AT_FDCWD, path, O_WRONLY | O_CREAT | O_TRUNC | O_CLOEXEC, 0600);
  if (file < 0) return;
  syscall(SYS_write, file, line, (size_t)size);
  syscall(SYS_close, file);
}

/* Counts one more call of a kind, and returns whether it must fail. */
static bool is_failed(enum what kind) {
  if (!(counted_kinds & kind) || !atomic_load(&counting)) return false;
  long this = atomic_fetch_add(&count, 1) + 1, failed = atomic_load(&number);
  if (failed == 0 || this < failed) return false;
  if (this > failed) return how == ALL || how == BROKEN;
  report("reached");
  return true;
}

static void *next(const char *name) { return dlsym(RTLD_NEXT, name); }

static void find_memory(void) {
  if (next_free != NULL) return;
  static bool looking;
  if (looking) return;
  looking = true;
  next_malloc = next("malloc");
  next_calloc = next("calloc");
  next_realloc = next("realloc");
  next_posix_memalign = next("posix_memalign");
  next_aligned_alloc = next("aligned_alloc");
  next_free = next("free");
  looking = false;
}

static int index_of(const char *word, size_t size, const char *const *words, int length) {
  for (int i = 0; i < length; i++)
    if (strlen(words[i]) == size && strncmp(words[i], word, size) == 0) return i;
  return -1;
}

/* Ends the process at an unknown word, so that no run without a failure counts as one with a failure. */
static void wrong(const char *name) {
  dprintf(STDERR_FILENO, "shim: %s isn't one of the words\n", name);
  _exit(70);
}

__attribute__((constructor)) static void begin(void) {
  find_memory();
  next_read = next("read");
  next_pread = next("pread64");
  next_readv = next("readv");
  next_write = next("write");
  next_pwrite = next("pwrite64");
  next_writev = next("writev");
  next_fsync = next("fsync");
  next_fdatasync = next("fdatasync");
  next_rename = next("rename");
  next_renameat = next("renameat");
  next_renameat2 = next("renameat2");
  next_open = next("open");
  next_statx = next("statx");
  next_realpath = next("realpath");
  const char *what_words = getenv("FAULTS_WHAT"), *how_word = getenv("FAULTS_HOW"), *n = getenv("FAULTS_N");
  if (what_words == NULL || how_word == NULL) return;
  while (*what_words != 0) {
    size_t size = strcspn(what_words, ",");
    int kind = index_of(what_words, size, whats, 7);
    if (kind < 0) wrong("FAULTS_WHAT");
    counted_kinds |= 1 << kind;
    what_words += size + (what_words[size] == ',');
  }
  int way = index_of(how_word, strlen(how_word), hows, 9);
  if (way < 0 || (counted_kinds != ALLOCATION) != (way > ALL)) wrong("FAULTS_HOW");
  how = (enum how)way;
  by_lines = n == NULL;
  if (by_lines) return;
  atomic_store(&number, atol(n));
  atomic_store(&counting, true);
}

__attribute__((destructor)) static void end(void) {
  atomic_store(&counting, false);
  report("missed");
}

/* A program may end without its destructors. */
void _exit(int status) {
  end();
  syscall(SYS_exit_group, status);
  for (;;) syscall(SYS_pause);
}

/* ---- memory */

void *malloc(size_t size) {
  find_memory();
  if (next_malloc == NULL) return take_early(size);
  if (is_failed(ALLOCATION)) {
    errno = ENOMEM;
    return NULL;
  }
  return next_malloc(size);
}

void *calloc(size_t items, size_t size) {
  find_memory();
  if (next_calloc == NULL) return items != 0 && size > sizeof early / items ? NULL : take_early(items * size);
  if (is_failed(ALLOCATION)) {
    errno = ENOMEM;
    return NULL;
  }
  return next_calloc(items, size);
}

void *realloc(void *block, size_t size) {
  find_memory();
  if (is_early(block)) {
    void *moved = malloc(size);
    size_t rest = (size_t)(early + sizeof early - (char *)block);
    return moved == NULL ? NULL : memcpy(moved, block, size < rest ? size : rest);
  }
  if (next_realloc == NULL) return block == NULL ? take_early(size) : NULL;
  bool is_growth = block == NULL || size > malloc_usable_size(block);
  if (is_growth && is_failed(ALLOCATION)) {
    errno = ENOMEM;
    return NULL;
  }
  return next_realloc(block, size);
}

int posix_memalign(void **block, size_t alignment, size_t size) {
  find_memory();
  if (is_failed(ALLOCATION)) return ENOMEM;
  return next_posix_memalign(block, alignment, size);
}

void *aligned_alloc(size_t alignment, size_t size) {
  find_memory();
  if (is_failed(ALLOCATION)) {
    errno = ENOMEM;
    return NULL;
  }
  return next_aligned_alloc(alignment, size);
}

void free(void *block) {
  find_memory();
  if (block != NULL && !is_early(block) && next_free != NULL) next_free(block);
}

/* ---- lines on standard error */

/* Reads what is written to standard error, and starts and stops counting at the end of the lines that say so. */
static void hear(const char *bytes, size_t size) {
  static char line[64];
  static size_t used;
  if (!by_lines) return;
  for (size_t i = 0; i < size; i++) {
    if (bytes[i] != '\n') {
      if (used < sizeof line - 1) line[used++] = bytes[i];
      continue;
    }
    line[used] = 0;
    used = 0;
    if (strncmp(line, "armed ", 6) == 0) {
      atomic_store(&number, atol(line + 6));
      atomic_store(&count, 0);
      atomic_store(&counting, true);
    } else if (strcmp(line, "disarmed") == 0) {
      atomic_store(&counting, false);
    }
  }
}

/* ---- reads, writes, syncs and renames */

static void die(void) {
  syscall(SYS_kill, syscall(SYS_getpid), SIGKILL);
  for (;;) syscall(SYS_pause);
}

/* Fails a call that isn't a half write. */
static int fail(void) {
  if (how == KILL || how == TORN) die();
  errno = how == EIO_ || how == BROKEN ? EIO : how == ENOSPC_ ? ENOSPC : EINTR;
  return -1;
}

/* Whether a write that fails takes half of its bytes. */
static bool takes_half(void) { return how == HALF || how == TORN || (how == BROKEN && !atomic_exchange(&broken, true)); }

ssize_t read(int file, void *bytes, size_t size) {
  return is_failed(READ) ? fail() : next_read(file, bytes, size);
}

ssize_t pread64(int file, void *bytes, size_t size, off_t from) {
  return is_failed(READ) ? fail() : next_pread(file, bytes, size, from);
}

ssize_t pread(int file, void *bytes, size_t size, off_t from) { return pread64(file, bytes, size, from); }

ssize_t readv(int file, const struct iovec *parts, int length) {
  return is_failed(READ) ? fail() : next_readv(file, parts, length);
}

ssize_t write(int file, const void *bytes, size_t size) {
  if (file == STDERR_FILENO) {
    ssize_t written = next_write(file, bytes, size);
    if (written > 0) hear(bytes, (size_t)written);
    return written;
  }
  if (!is_failed(WRITE)) return next_write(file, bytes, size);
  if (!takes_half()) return fail();
  ssize_t written = next_write(file, bytes, (size + 1) / 2);
  if (how == TORN) die();
  return written;
}

ssize_t __write(int file, const void *bytes, size_t size) { return write(file, bytes, size); }

ssize_t pwrite64(int file, const void *bytes, size_t size, off_t from) {
  if (!is_failed(WRITE)) return next_pwrite(file, bytes, size, from);
  if (!takes_half()) return fail();
  ssize_t written = next_pwrite(file, bytes, (size + 1) / 2, from);
  if (how == TORN) die();
  return written;
}

ssize_t pwrite(int file, const void *bytes, size_t size, off_t from) { return pwrite64(file, bytes, size, from); }

ssize_t writev(int file, const struct iovec *parts, int length) {
  if (file == STDERR_FILENO) {
    ssize_t written = next_writev(file, parts, length);
    size_t left = written > 0 ? (size_t)written : 0;
    for (int i = 0; i < length && left > 0; i++) {
      size_t size = parts[i].iov_len < left ? parts[i].iov_len : left;
      hear(parts[i].iov_base, size);
      left -= size;
    }
    return written;
  }
  if (!is_failed(WRITE)) return next_writev(file, parts, length);
  if (!takes_half()) return fail();
  ssize_t written = length > 0 ? next_write(file, parts[0].iov_base, (parts[0].iov_len + 1) / 2) : 0;
  if (how == TORN) die();
  return written;
}

int fsync(int file) { return is_failed(SYNC) ? fail() : next_fsync(file); }

int fdatasync(int file) { return is_failed(SYNC) ? fail() : next_fdatasync(file); }

int rename(const char *from, const char *to) { return is_failed(RENAME) ? fail() : next_rename(from, to); }

int renameat(int old, const char *from, int new, const char *to) {
  return is_failed(RENAME) ? fail() : next_renameat(old, from, new, to);
}

int renameat2(int old, const char *from, int new, const char *to, unsigned flags) {
  return is_failed(RENAME) ? fail() : next_renameat2(old, from, new, to, flags);
}

int open(const char *path, int flags, ...) {
  if (is_failed(OPEN)) return fail();
  va_list rest;
  va_start(rest, flags);
  bool makes = (flags & O_CREAT) || (flags & O_TMPFILE) == O_TMPFILE;
  mode_t mode = makes ? va_arg(rest, mode_t) : 0;
  va_end(rest);
  return next_open(path, flags, mode);
}

int statx(int folder, const char *path, int flags, unsigned mask, struct statx *found) {
  return is_failed(LOOKUP) ? fail() : next_statx(folder, path, flags, mask, found);
}

char *realpath(const char *path, char *found) {
  if (!is_failed(LOOKUP)) return next_realpath(path, found);
  fail();
  return NULL;
}
