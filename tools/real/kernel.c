/* Runs the threads of a trace on the io_uring of this machine, by raw system calls. It belongs to no crate and rests on no
 * contract; real.py builds and runs it.
 *
 * usage: kernel TRACE FOLDER PLAN
 *
 * TRACE is a trace of form 2 (docs/TRACES.md). Its steps, takes and ticks are carried out in its order; all its other events
 * are the kernel's own, so the kernel of this machine makes them. Files are made in FOLDER. PLAN has a line for each step,
 * take and tick, and for each time that a request is given:
 *
 *   event E SECOND END POSTED   event E ends END ns after the start at the earliest, and POSTED completions are expected
 *                               by then; SECOND is 1 where the thread has waited in its enter since an earlier event
 *   timer ROW AT FROM           the time of request ROW comes AT ns after the start; the request is issued at FROM
 *
 * Standard output gets a line for each thing that a user can see:
 *
 *   completion USER RESULT FLAGS   in the order in which they were posted
 *   returned THREAD VALUE          an enter or a close returned
 *   waits THREAD                   an enter didn't return
 *   skipped EVENT                  the step could not be carried out: the ring was full or empty, or the thread waits
 *   word NAME VALUE, memory HEX, file NAME HEX   at the end
 *
 * Status 3: io_uring_setup(2) failed, and standard error has its errno; 4: the run took more than 20 seconds; 1: another
 * call failed. */
#define _GNU_SOURCE
#include <errno.h>
#include <fcntl.h>
#include <linux/io_uring.h>
#include <pthread.h>
#include <signal.h>
#include <stdarg.h>
#include <stdbool.h>
#include <stdint.h>
#include <stdio.h>
#include <stdlib.h>
#include <string.h>
#include <sys/eventfd.h>
#include <sys/mman.h>
#include <sys/prctl.h>
#include <sys/resource.h>
#include <sys/stat.h>
#include <sys/syscall.h>
#include <time.h>
#include <unistd.h>

#ifndef IORING_SETUP_SUBMIT_ALL
#define IORING_SETUP_SUBMIT_ALL (1U << 7)
#endif

enum { MEMORY = 65536, GUARD = 1 << 24, FIRST_FD = 3, MOST_FDS = 64, REAL_FD = 100, NO_FD = 1 << 24 };
enum { STEP = 1, TAKE = 2, TICK = 7 };
enum { PUT = 1, PUSH, STORE, ENTER, REAP, CLOSE };
enum { FILE_OBJECT = 1, PIPE_OBJECT, EVENTFD_OBJECT };
enum { SQPOLL = 1, SUBMIT_ALL = 2 };

static const int64_t MILLISECOND = 1000000, SETTLING = 15 * MILLISECOND, PATIENCE = 100 * MILLISECOND;
static const int64_t LONG_PATIENCE = 1000 * MILLISECOND, LIMIT = 20000 * MILLISECOND;

struct instruction {
    uint8_t kind;
    uint32_t numbers[3]; /* slot; index; address and length; to_submit, min_complete and flags; descriptor */
    const uint8_t *bytes;
};

struct thread {
    uint32_t count, next;
    struct instruction *program;
    pthread_t worker;
    enum { READY, ASKED, RETURNED } state; /* of its enter */
    bool stuck;                            /* whether its enter didn't return in time */
    long result;
};

struct object {
    char name[17];
    uint8_t kind;
    uint32_t size; /* bytes of a file, capacity of a pipe */
    uint64_t counter;
    const uint8_t *bytes;
    int ends[2];
};

struct event { uint8_t kind; uint32_t number; uint64_t wide; };
struct planned { bool second; int64_t end; uint64_t posted; };
struct timer { bool set; int64_t at, from; struct __kernel_timespec time; };

/* The trace. */
static uint32_t entries, completions, options, objects_count, fds_count, threads_count, events_count;
static struct object objects[256];
static uint8_t fd_objects[MOST_FDS], fd_ends[MOST_FDS];
static struct thread threads[16];
static struct event *events;

/* The plan. */
static struct planned *plan;
static struct timer timers[MEMORY];

/* What the program has: memory, slots as it wrote them, and each index that it pushed. */
static uint8_t *memory;
static uint8_t *slots;
static uint32_t *pushed, pushed_room;

/* The rings. */
static int ring;
static uint32_t *sq_head, *sq_tail, *sq_flags, *sq_dropped, *sq_array, *cq_head, *cq_tail;
static uint32_t sq_mask, cq_mask;
static struct io_uring_sqe *sqes;
static struct io_uring_cqe *cqes;

static uint32_t seen;              /* the completions that were printed */
static uint32_t counted, rows;     /* how many pushed indexes the kernel took, and how many of them were of slots */
static int64_t start;
static pthread_mutex_t lock = PTHREAD_MUTEX_INITIALIZER;
static pthread_cond_t changed;

static _Noreturn void fail(int status, const char *text, ...) {
    va_list rest;
    va_start(rest, text);
    vfprintf(stderr, text, rest);
    va_end(rest);
    fputc('\n', stderr);
    _exit(status);
}

static int64_t now(void) {
    struct timespec it;
    clock_gettime(CLOCK_MONOTONIC, &it);
    return it.tv_sec * 1000 * MILLISECOND + it.tv_nsec;
}

static struct timespec time_at(int64_t at) {
    return (struct timespec){.tv_sec = at / (1000 * MILLISECOND), .tv_nsec = at % (1000 * MILLISECOND)};
}

static void sleep_until(int64_t at) {
    struct timespec until = time_at(at);
    while (clock_nanosleep(CLOCK_MONOTONIC, TIMER_ABSTIME, &until, NULL) == EINTR)
        continue;
}

static void *room_for(size_t count, size_t size) {
    void *room = calloc(count + 1, size);
    if (!room)
        fail(1, "out of memory");
    return room;
}

/* ---- Reading the trace and the plan */

struct reader { const uint8_t *at, *end; };

static const uint8_t *bytes(struct reader *from, size_t count) {
    const uint8_t *found = from->at;
    if ((size_t)(from->end - from->at) < count)
        fail(1, "the trace is truncated");
    from->at += count;
    return found;
}

static uint64_t number(struct reader *from, int width) {
    const uint8_t *found = bytes(from, width);
    uint64_t value = 0;
    for (int at = width - 1; at >= 0; at--)
        value = value << 8 | found[at];
    return value;
}

static struct reader contents(const char *path) {
    struct stat about;
    int fd = open(path, O_RDONLY | O_CLOEXEC);
    if (fd < 0 || fstat(fd, &about))
        fail(1, "%s: %s", path, strerror(errno));
    uint8_t *room = room_for(about.st_size, 1);
    if (read(fd, room, about.st_size) != about.st_size)
        fail(1, "%s can't be read whole", path);
    close(fd);
    return (struct reader){room, room + about.st_size};
}

static void read_object(struct reader *from, struct object *it) {
    uint8_t length = number(from, 1);
    if (length >= sizeof it->name)
        fail(1, "a name is too long");
    memcpy(it->name, bytes(from, length), length);
    it->kind = number(from, 1);
    if (it->kind == EVENTFD_OBJECT)
        it->counter = number(from, 8);
    else
        it->size = number(from, 4);
    if (it->kind == FILE_OBJECT)
        it->bytes = bytes(from, it->size);
}

static void read_instruction(struct reader *from, struct instruction *it) {
    static const uint8_t numbers[] = {[PUT] = 1, [PUSH] = 1, [STORE] = 2, [ENTER] = 3, [REAP] = 0, [CLOSE] = 1};
    it->kind = number(from, 1);
    if (it->kind < PUT || it->kind > CLOSE)
        fail(1, "an instruction is unknown");
    for (int at = 0; at < numbers[it->kind]; at++)
        it->numbers[at] = number(from, 4);
    if (it->kind == PUT)
        it->bytes = bytes(from, sizeof(struct io_uring_sqe));
    if (it->kind == STORE)
        it->bytes = bytes(from, it->numbers[1]);
}

static void read_thread(struct reader *from, struct thread *it) {
    it->count = number(from, 4);
    it->program = room_for(it->count, sizeof *it->program);
    for (uint32_t at = 0; at < it->count; at++)
        read_instruction(from, &it->program[at]);
}

static uint32_t count_up_to(struct reader *from, uint32_t most) {
    uint32_t count = number(from, 4);
    if (count > most)
        fail(1, "a list of the trace is too long");
    return count;
}

static void read_setup(struct reader *from) {
    if (memcmp(bytes(from, 8), "URTRACE2", 8))
        fail(1, "this is no trace of form 2");
    entries = number(from, 2);
    completions = number(from, 2);
    options = number(from, 1);
    if (number(from, 4))
        fail(1, "the rings of a kernel start at 0");
    uint32_t length = count_up_to(from, MEMORY);
    memcpy(memory, bytes(from, length), length);
    objects_count = count_up_to(from, 256);
    for (uint32_t at = 0; at < objects_count; at++)
        read_object(from, &objects[at]);
    fds_count = count_up_to(from, MOST_FDS);
    for (uint32_t at = 0; at < fds_count; at++) {
        fd_objects[at] = number(from, 1);
        fd_ends[at] = number(from, 1);
    }
    threads_count = count_up_to(from, 16);
    for (uint32_t at = 0; at < threads_count; at++)
        read_thread(from, &threads[at]);
}

static void read_events(struct reader *from) {
    events_count = number(from, 4);
    events = room_for(events_count, sizeof *events);
    plan = room_for(events_count, sizeof *plan);
    for (uint32_t at = 0; at < events_count; at++) {
        uint64_t word = number(from, 8);
        events[at] = (struct event){.kind = word & 255, .number = word >> 32, .wide = number(from, 8)};
    }
}

static void read_plan(const char *path) {
    FILE *from = fopen(path, "re");
    char word[8];
    unsigned at, second;
    long long first, last;
    if (!from)
        fail(1, "%s: %s", path, strerror(errno));
    while (fscanf(from, "%7s %u", word, &at) == 2) {
        if (!strcmp(word, "timer") && at < MEMORY && fscanf(from, "%lld %lld", &first, &last) == 2)
            timers[at] = (struct timer){.set = true, .at = first, .from = last};
        else if (!strcmp(word, "event") && at < events_count && fscanf(from, "%u %lld %lld", &second, &first, &last) == 3)
            plan[at] = (struct planned){.second = second, .end = first, .posted = last};
        else
            fail(1, "a line of the plan is unknown");
    }
    fclose(from);
}

/* ---- Making the objects and the rings */

static int checked(int result, const char *what) {
    if (result < 0)
        fail(1, "%s: %s", what, strerror(errno));
    return result;
}

static void write_file(const char *folder, const struct object *it) {
    char path[4096];
    snprintf(path, sizeof path, "%s/%s", folder, it->name);
    int fd = checked(open(path, O_WRONLY | O_CREAT | O_EXCL | O_CLOEXEC, 0600), path);
    if (write(fd, it->bytes, it->size) != (ssize_t)it->size)
        fail(1, "%s can't be written", path);
    close(fd);
}

static void make_object(const char *folder, struct object *it) {
    it->ends[0] = it->ends[1] = -1;
    if (it->kind == FILE_OBJECT) {
        write_file(folder, it);
    } else if (it->kind == PIPE_OBJECT) {
        checked(pipe2(it->ends, O_CLOEXEC), "pipe2");
        if (fcntl(it->ends[1], F_SETPIPE_SZ, it->size) != (int)it->size)
            fail(1, "a pipe of %u bytes can't be made", it->size);
    } else {
        it->ends[0] = checked(eventfd(0, EFD_CLOEXEC), "eventfd");
        if (write(it->ends[0], &it->counter, 8) != 8)
            fail(1, "an eventfd can't be set");
    }
}

/* Gives the descriptor with this index its number: that of the script, and REAL_FD. */
static void make_descriptor(const char *folder, uint32_t at) {
    struct object *it = &objects[fd_objects[at]];
    char path[4096];
    int from = it->ends[it->kind == PIPE_OBJECT && fd_ends[at] == 2];
    if (it->kind == FILE_OBJECT) {
        snprintf(path, sizeof path, "%s/%s", folder, it->name);
        from = checked(open(path, O_RDWR | O_CLOEXEC), path);
    }
    checked(dup3(from, REAL_FD + FIRST_FD + at, O_CLOEXEC), "dup3");
    if (it->kind == FILE_OBJECT)
        close(from);
}

static void make_objects(const char *folder) {
    for (uint32_t at = 0; at < objects_count; at++)
        make_object(folder, &objects[at]);
    for (uint32_t at = 0; at < fds_count; at++)
        make_descriptor(folder, at);
    for (uint32_t at = 0; at < objects_count; at++) {
        for (int end = 0; end < 2; end++) {
            if (objects[at].ends[end] >= 0)
                close(objects[at].ends[end]);
        }
    }
}

static uint8_t *mapped(size_t size, off_t offset) {
    void *at = mmap(NULL, size, PROT_READ | PROT_WRITE, MAP_SHARED | MAP_POPULATE, ring, offset);
    if (at == MAP_FAILED)
        fail(1, "mmap: %s", strerror(errno));
    return at;
}

static void make_rings(void) {
    struct io_uring_params how = {.flags = IORING_SETUP_CQSIZE, .cq_entries = completions, .sq_thread_idle = 1};
    if (options & SQPOLL)
        how.flags |= IORING_SETUP_SQPOLL;
    if (options & SUBMIT_ALL)
        how.flags |= IORING_SETUP_SUBMIT_ALL;
    ring = syscall(__NR_io_uring_setup, entries, &how);
    if (ring < 0)
        fail(3, "%d", errno);
    uint8_t *sq = mapped(how.sq_off.array + how.sq_entries * 4, IORING_OFF_SQ_RING);
    uint8_t *cq = mapped(how.cq_off.cqes + how.cq_entries * sizeof *cqes, IORING_OFF_CQ_RING);
    sqes = (void *)mapped(how.sq_entries * sizeof *sqes, IORING_OFF_SQES);
    sq_head = (void *)(sq + how.sq_off.head), sq_tail = (void *)(sq + how.sq_off.tail);
    sq_flags = (void *)(sq + how.sq_off.flags), sq_dropped = (void *)(sq + how.sq_off.dropped);
    sq_array = (void *)(sq + how.sq_off.array), cqes = (void *)(cq + how.cq_off.cqes);
    cq_head = (void *)(cq + how.cq_off.head), cq_tail = (void *)(cq + how.cq_off.tail);
    sq_mask = how.sq_entries - 1, cq_mask = how.cq_entries - 1;
    if (how.sq_entries != entries || how.cq_entries != completions)
        fail(1, "the kernel made rings of other sizes");
    slots = room_for(entries, sizeof *sqes);
}

static bool is_modelled(uint8_t opcode) {
    static const uint8_t modelled[] = {0, 3, 6, 7, 11, 12, 14, 15, 22, 23};
    return memchr(modelled, opcode, sizeof modelled);
}

/* Fails if a thread has an entry that the model refuses and this kernel might carry out. */
static void check_opcodes(void) {
    struct io_uring_probe known = {0};
    if (syscall(__NR_io_uring_register, ring, IORING_REGISTER_PROBE, &known, 0) < 0)
        known.last_op = UINT8_MAX;
    for (uint32_t at = 0; at < threads_count; at++) {
        for (uint32_t next = 0; next < threads[at].count; next++) {
            const struct instruction *it = &threads[at].program[next];
            if (it->kind == PUT && it->bytes[0] <= known.last_op && !is_modelled(it->bytes[0]))
                fail(1, "opcode %u isn't modelled, and this kernel knows it", it->bytes[0]);
        }
    }
}

/* ---- What the kernel gets: the script's numbers in the form that this process has */

static uint32_t load(const uint32_t *from) { return __atomic_load_n(from, __ATOMIC_ACQUIRE); }
static void store(uint32_t *into, uint32_t value) { __atomic_store_n(into, value, __ATOMIC_RELEASE); }

/* The address of a byte of the script's memory. One outside is an address that nobody has. */
static uint64_t address_of(uint64_t address) {
    return (uintptr_t)memory + (address <= MEMORY ? address : MEMORY + address % (GUARD / 2));
}

static int32_t descriptor_of(int32_t fd) {
    if (fd < 0)
        return fd;
    return fd >= FIRST_FD && fd < FIRST_FD + (int32_t)fds_count ? REAL_FD + fd : NO_FD;
}

/* The address of the time that a request of the plan gets. */
static uint64_t time_of(struct timer *it, bool absolute, int64_t at) {
    int64_t due = it->at - (it->from > at - start ? it->from : at - start);
    struct timespec time = time_at(absolute ? start + it->at : due > 0 ? due : 0);
    it->time = (struct __kernel_timespec){.tv_sec = time.tv_sec, .tv_nsec = time.tv_nsec};
    return (uintptr_t)&it->time;
}

static void give_entry(uint32_t slot, uint32_t row, int64_t at) {
    struct io_uring_sqe it;
    memcpy(&it, slots + slot * sizeof it, sizeof it);
    it.fd = descriptor_of(it.fd);
    if (it.opcode == IORING_OP_READ || it.opcode == IORING_OP_WRITE) {
        it.addr = address_of(it.addr);
    } else if (it.opcode == IORING_OP_TIMEOUT || it.opcode == IORING_OP_LINK_TIMEOUT) {
        if (row < MEMORY && timers[row].set)
            it.addr = time_of(&timers[row], it.timeout_flags & IORING_TIMEOUT_ABS, at);
        else
            it.addr = address_of(it.addr);
    }
    sqes[slot] = it;
}

/* Counts the requests that the kernel took. */
static void count_rows(void) {
    for (uint32_t head = load(sq_head); counted != head; counted++)
        rows += pushed[counted] < entries;
}

/* Gives the kernel the entries that it may take next. */
static void give_entries(void) {
    count_rows();
    int64_t at = now();
    uint32_t row = rows;
    for (uint32_t index = counted; index != *sq_tail; index++) {
        if (pushed[index] < entries)
            give_entry(pushed[index], row++, at);
    }
}

/* ---- What the kernel did */

/* Prints each completion that is new in the ring. */
static void observe(void) {
    for (uint32_t tail = load(cq_tail); seen != tail; seen++) {
        struct io_uring_cqe *it = &cqes[seen & cq_mask];
        printf("completion %llu %d %u\n", (unsigned long long)it->user_data, it->res, it->flags);
    }
}

/* Waits until a number of completions was posted, or the ring is full, but not after a moment. */
static void await_posted(uint64_t posted, int64_t until) {
    while (load(cq_tail) < posted && load(cq_tail) - load(cq_head) <= cq_mask && now() < until)
        sleep_until(now() + MILLISECOND);
}

/* Waits until the kernel has nothing more to do after an event. */
static void settle(const struct planned *it, bool acted) {
    int64_t at = now(), end = start + it->end;
    if (acted && end < at + SETTLING)
        end = at + SETTLING;
    if (end > at)
        sleep_until(end);
    if (acted)
        await_posted(it->posted, end + PATIENCE);
    observe();
    count_rows();
    if (now() - start > LIMIT)
        fail(4, "not settled");
}

/* ---- The threads */

static void *serve(void *given) {
    struct thread *it = given;
    pthread_mutex_lock(&lock);
    for (;;) {
        while (it->state != ASKED)
            pthread_cond_wait(&changed, &lock);
        const uint32_t *words = it->program[it->next].numbers;
        pthread_mutex_unlock(&lock);
        long result = syscall(__NR_io_uring_enter, ring, words[0], words[1], words[2], NULL, _NSIG / 8);
        result = result < 0 ? -errno : result;
        pthread_mutex_lock(&lock);
        it->result = result;
        it->state = RETURNED;
        pthread_cond_broadcast(&changed);
    }
    return NULL;
}

static void start_threads(void) {
    pthread_condattr_t how;
    pthread_condattr_init(&how);
    pthread_condattr_setclock(&how, CLOCK_MONOTONIC);
    pthread_cond_init(&changed, &how);
    for (uint32_t at = 0; at < threads_count; at++) {
        if (pthread_create(&threads[at].worker, NULL, serve, &threads[at]))
            fail(1, "a thread can't be started");
    }
}

/* Whether a thread's enter has returned, or does within a time. If so, the thread is ready for its next step. */
static bool returned(struct thread *it, int64_t within) {
    struct timespec until = time_at(now() + within);
    int waited = 0;
    if (it->state == READY)
        return true;
    pthread_mutex_lock(&lock);
    while (it->state != RETURNED && waited != ETIMEDOUT)
        waited = pthread_cond_timedwait(&changed, &lock, &until);
    bool done = it->state == RETURNED;
    if (done) {
        printf("returned %u %ld\n", (unsigned)(it - threads), it->result);
        it->state = READY;
        it->next++;
    }
    pthread_mutex_unlock(&lock);
    return done;
}

static void enter(struct thread *it) {
    give_entries();
    pthread_mutex_lock(&lock);
    it->state = ASKED;
    pthread_cond_broadcast(&changed);
    pthread_mutex_unlock(&lock);
}

static bool push(uint32_t index) {
    uint32_t tail = *sq_tail;
    if (tail - load(sq_head) >= entries)
        return false;
    if (tail == pushed_room) {
        pushed_room = pushed_room ? 2 * pushed_room : 1024;
        pushed = realloc(pushed, pushed_room * sizeof *pushed);
        if (!pushed)
            fail(1, "out of memory");
    }
    pushed[tail] = sq_array[tail & sq_mask] = index;
    if (index < entries)
        give_entry(index, MEMORY, now());
    store(sq_tail, tail + 1);
    return true;
}

static bool reap(void) {
    await_posted((uint64_t)*cq_head + 1, now() + PATIENCE);
    observe();
    if (load(cq_tail) == *cq_head)
        return false;
    store(cq_head, *cq_head + 1);
    return true;
}

static void close_descriptor(unsigned thread, int32_t fd) {
    int real = descriptor_of(fd);
    int result = real < 0 || real == NO_FD ? -EBADF : close(real) ? -errno : 0;
    printf("returned %u %d\n", thread, result);
}

/* Carries out a thread's next instruction, other than an enter. Returns false where the kernel doesn't allow it. */
static bool carry_out(unsigned thread, const struct instruction *it) {
    switch (it->kind) {
    case PUT:
        memcpy(slots + it->numbers[0] % entries * sizeof *sqes, it->bytes, sizeof *sqes);
        return true;
    case PUSH:
        return push(it->numbers[0]);
    case STORE:
        if ((uint64_t)it->numbers[0] + it->numbers[1] <= MEMORY)
            memcpy(memory + it->numbers[0], it->bytes, it->numbers[1]);
        return true;
    case REAP:
        return reap();
    default:
        close_descriptor(thread, it->numbers[0]);
        return true;
    }
}

/* Makes a step of a thread. Returns whether the kernel may have something to do since. */
static bool step(uint32_t event, unsigned thread) {
    struct thread *it = &threads[thread % 16];
    if (plan[event].second) {
        it->stuck = !returned(it, LONG_PATIENCE);
        return false;
    }
    if (!returned(it, it->stuck ? 0 : LONG_PATIENCE) || it->next >= it->count) {
        it->stuck = true;
        printf("skipped %u\n", event);
        return false;
    }
    const struct instruction *next = &it->program[it->next];
    if (next->kind == ENTER) {
        enter(it);
        return true;
    }
    if (!carry_out(thread, next))
        printf("skipped %u\n", event);
    it->next++;
    return next->kind == CLOSE;
}

/* Wakes the poller, which takes all entries that there are. */
static void take(void) {
    give_entries();
    syscall(__NR_io_uring_enter, ring, 0, 0, IORING_ENTER_SQ_WAKEUP, NULL, 0);
}

static void run(void) {
    start = now();
    for (uint32_t at = 0; at < events_count; at++) {
        bool acted = true;
        if (events[at].kind == STEP)
            acted = step(at, events[at].number);
        else if (events[at].kind == TAKE)
            take();
        else if (events[at].kind != TICK)
            continue;
        settle(&plan[at], acted);
        for (uint32_t thread = 0; thread < threads_count; thread++)
            returned(&threads[thread], 0);
    }
}

/* ---- The end */

static void print_bytes(const uint8_t *from, size_t count) {
    for (size_t at = 0; at < count; at++)
        printf("%02x", from[at]);
    putchar('\n');
}

static void print_file(const char *folder, const struct object *it) {
    char path[4096];
    snprintf(path, sizeof path, "%s/%s", folder, it->name);
    struct reader from = contents(path);
    printf("file %s ", it->name);
    print_bytes(from.at, from.end - from.at);
}

/* Prints the completions of the kernel's backlog. */
static void drain(void) {
    uint32_t before;
    do {
        before = seen;
        store(cq_head, seen);
        syscall(__NR_io_uring_enter, ring, 0, 0, IORING_ENTER_GETEVENTS, NULL, _NSIG / 8);
        observe();
    } while (seen != before);
}

static void print_end(const char *folder) {
    for (uint32_t at = 0; at < threads_count; at++) {
        if (!returned(&threads[at], 0))
            printf("waits %u\n", at);
    }
    printf("word sq.head %u\nword sq.tail %u\nword sq.flags %u\n", load(sq_head), load(sq_tail), load(sq_flags));
    printf("word sq.dropped %u\nword cq.head %u\nword cq.tail %u\n", load(sq_dropped), load(cq_head), load(cq_tail));
    drain();
    printf("memory ");
    print_bytes(memory, MEMORY);
    for (uint32_t at = 0; at < objects_count; at++) {
        if (objects[at].kind == FILE_OBJECT)
            print_file(folder, &objects[at]);
    }
}

/* A write may end no later than at the size of a file of the model, and raises no signal. */
static void limit_process(void) {
    struct rlimit most = {.rlim_cur = MEMORY, .rlim_max = MEMORY};
    prctl(PR_SET_PDEATHSIG, SIGKILL);
    signal(SIGPIPE, SIG_IGN);
    signal(SIGXFSZ, SIG_IGN);
    setrlimit(RLIMIT_FSIZE, &most);
}

int main(int count, char **words) {
    if (count != 4)
        fail(2, "usage: kernel TRACE FOLDER PLAN");
    limit_process();
    memory = mmap(NULL, MEMORY + GUARD, PROT_NONE, MAP_PRIVATE | MAP_ANONYMOUS, -1, 0);
    if (memory == MAP_FAILED || mprotect(memory, MEMORY, PROT_READ | PROT_WRITE))
        fail(1, "mmap: %s", strerror(errno));
    struct reader from = contents(words[1]);
    read_setup(&from);
    read_events(&from);
    read_plan(words[3]);
    make_rings();
    check_opcodes();
    make_objects(words[2]);
    start_threads();
    sleep_until(now() + SETTLING); /* the poller falls asleep */
    run();
    print_end(words[2]);
    fflush(stdout);
    _exit(0);
}
