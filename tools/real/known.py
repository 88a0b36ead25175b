"""Names differences: which item of docs/DECISIONS.md, section "Where a real kernel differs", explains one.

Each rule looks at the script, at the place that differs and at both values. A difference that no rule explains stays without
a name. First the completions are looked at, each by the entry with its user_data; then what follows from those: other
requests of the same chain, object or submission, ring words, results of calls, and bytes."""
import traces
from model import SQPOLL
from traces import ENTER, EVENTFD, FILE, PIPE

NOP, FSYNC, POLL, POLL_REMOVE, TIMEOUT, REMOVE, CANCEL, LINK_TIMEOUT, READ, WRITE = 0, 3, 6, 7, 11, 12, 14, 15, 22, 23
TRANSFERS, REMOVALS = (READ, WRITE), (POLL_REMOVE, REMOVE, CANCEL)
ENOENT, EINTR, EBADF, EFAULT, EBUSY, EINVAL, EFBIG, ETIME = -2, -4, -9, -14, -16, -22, -27, -62
EALREADY, ECANCELED = -114, -125
DRAIN, ASYNC, LINKS, OTHER_FLAGS = 2, 16, 4 | 8, 1 | 32 | 64
MEMORY = 65536
POSITION, SIGNED = 2 ** 64 - 1, 2 ** 63
MASK = 1 | 4 | 8 | 16


class Context:
    """The script, its eager run, and what the kernel did."""

    def __init__(self, found, run, outcome):
        self.found, self.run, self.state, self.setup, self.outcome = found, run, run.state, run.setup, outcome
        self.rows = self.state.rows
        self.entries = [row.entry for row in self.rows]
        for thread in self.setup.threads:
            self.read_program(thread)
        self.named = {}

    def read_program(self, thread):
        """Adds the entries that are pushed and not submitted."""
        slots = {}
        for kind, numbers, raw in thread:
            if kind == traces.PUT:
                slots[numbers[0]] = traces.Entry.read(raw)
            elif kind == traces.PUSH:
                entry = slots.get(numbers[0], traces.Entry.read(bytes(64)))
                if entry not in self.entries:
                    self.entries.append(entry)

    def of_user(self, user):
        return [entry for entry in self.entries if entry.user_data == user]

    def object_of(self, fd):
        at = fd - 3
        return self.setup.descriptors[at][0] if 0 <= at < len(self.setup.descriptors) else None

    def kind_of(self, fd):
        at = self.object_of(fd)
        return None if at is None else self.setup.objects[at].kind

    def failed(self, row):
        """Whether a request completed as it was submitted."""
        return row.issued is None and row.result not in (None, ECANCELED)

    def has_ended_timeout(self):
        """Whether a TIMEOUT expired or was met on the kernel."""
        users = [entry.user_data for entry in self.entries if entry.op == TIMEOUT]
        return any(user in users and result in (0, ETIME) for user, result, _ in self.outcome.completions)

    def has(self, *ops):
        return any(entry.op in ops for entry in self.entries)


# ---- What one entry shows, by its fields and both results

def by_fields(entry, ours, theirs):
    """Yields the items about fields that the model refuses, and a kernel knows."""
    if ours in ([EINVAL], []):
        yield "entry-flags", entry.flags & OTHER_FLAGS
        yield "rw-flags", entry.op in TRANSFERS and entry.opflags
        yield "cancel-flags", entry.op == CANCEL and entry.opflags & ~3
        yield "timeout-flags", entry.op in (TIMEOUT, LINK_TIMEOUT) and entry.opflags & ~1
        yield "timeout-update", entry.op == REMOVE and entry.opflags
        yield "poll-update", entry.op == POLL_REMOVE and (entry.len or entry.opflags)
        yield "poll-multishot", entry.op == POLL and entry.len
    if theirs == [EINVAL]:
        yield "nonzero-ioprio", entry.ioprio and entry.op not in TRANSFERS
        yield "unknown-ioprio", entry.ioprio and entry.op in TRANSFERS
        yield "unused-address", entry.addr and entry.op in (FSYNC, POLL)
        yield "unused-fields", any(entry.rest[:8])
        yield "cancel-offset", entry.op == CANCEL and entry.off
    yield "nop-flags", entry.op == NOP and entry.opflags and theirs


def by_transfer(entry, ours, theirs, kind):
    """Yields the items about the ranges and the objects of transfers."""
    if entry.op not in TRANSFERS:
        return
    end = entry.addr + entry.len
    yield "eventfd-length", kind == EVENTFD and entry.op == WRITE and entry.len > 8 and theirs == [EINVAL]
    yield "eventfd-length", kind == EVENTFD and entry.op == WRITE and entry.len == 0 and theirs == [0]
    yield "partial-buffer", ours == [EFAULT] and entry.addr < MEMORY < end and (not theirs or theirs[0] != EFAULT)
    yield "offset-sum", theirs == [EINVAL] and ours in ([0], [EFBIG]) and entry.off < SIGNED <= entry.off + entry.len
    yield "pipe-offset", kind in (PIPE, EVENTFD) and theirs == [EINVAL] and SIGNED <= entry.off < POSITION
    yield "pipe-pages", kind == PIPE and entry.op == WRITE and moves_less(ours, theirs)


def by_wait(entry, ours, theirs, kind):
    """Yields the items about polls, timeouts and cancels."""
    if entry.op == POLL:
        yield "poll-file", kind == FILE and theirs == [EINVAL]
        yield "poll-bits", bits_apart(ours, theirs)
        yield "pipe-pages", kind == PIPE and entry.opflags & 4 and lacks_room(ours, theirs)
    if entry.op == LINK_TIMEOUT:
        yield "linked-address", ours == [EINVAL] and theirs == [EFAULT]
        yield "linked-cancel", ours == [ETIME] and theirs == [EALREADY]
        yield "linked-race", ours in ([ETIME], [ECANCELED]) and theirs == [ENOENT]
        yield "linked-worker", ours == [ETIME] and theirs == [ECANCELED]
    if entry.op == TIMEOUT:
        yield "count-width", entry.off >= 2 ** 32 and 0 in theirs
    if entry.op == CANCEL and entry.opflags & 2:
        yield "closed-descriptor", ours == [ENOENT] and theirs == [EBADF]
    yield "blocked-worker", theirs == [EINTR] and ours == [ECANCELED]
    yield "blocked-worker", entry.op in REMOVALS and theirs == [EALREADY] and ours == [0]


def bits_apart(ours, theirs):
    """Whether two results of a poll differ in bits alone that the model doesn't have."""
    return bool(ours and theirs and ours[0] >= 0 and theirs[0] >= 0 and ours[0] == theirs[0] & MASK)


def moves_less(ours, theirs):
    """Whether a WRITE moves bytes here, and fewer of them on the kernel, or waits there."""
    return bool(ours and ours[0] > 0) and (not theirs or 0 <= theirs[0] < ours[0])


def lacks_room(ours, theirs):
    """Whether a poll finds room here and none on the kernel."""
    return bool(ours and ours[0] & 4) and (not theirs or not theirs[0] & 4)


# ---- What the whole script shows

def full_eventfd(context, entry, ours, theirs):
    """Whether a kernel lets a WRITE of 0 or of 2^64 - 1 wait that completes here at once."""
    value = bytes(context.state.memory[entry.addr:entry.addr + 8])
    return (context.kind_of(entry.fd) == EVENTFD and entry.op == WRITE and value in (bytes(8), b"\xff" * 8)
            and not theirs and ours in ([8], [EINVAL]))


def meets(cancel, entry):
    if cancel.op == CANCEL and cancel.opflags & 2:
        return entry.fd == cancel.fd and entry.op in (READ, WRITE, POLL)
    return entry.user_data == cancel.addr


def several_matches(context, entry):
    """Whether a cancel of one request matches several, and this is the cancel or one of them."""
    for cancel in context.entries:
        if cancel.op in REMOVALS and not (cancel.op == CANCEL and cancel.opflags & 1):
            targets = [it for it in context.entries if it is not cancel and meets(cancel, it)]
            if len(targets) > 1 and (entry is cancel or entry in targets):
                return True
    return False


def after_worker(context, entry):
    """Whether a worker may carry out an earlier WRITE to the same object after this READ or poll."""
    at = context.object_of(entry.fd)
    if entry.op not in (READ, POLL):
        return False
    earlier = context.entries[:context.entries.index(entry)]
    workers = [it for it in earlier if it.op == WRITE and context.kind_of(it.fd) in (FILE, EVENTFD)]
    return at is not None and any(context.object_of(it.fd) == at for it in workers)


def overtakes(context, entry, ours, theirs):
    """Whether a READ that waited, and a later one of the same pipe or eventfd, got each other's bytes."""
    at = context.object_of(entry.fd)
    if entry.op != READ or context.kind_of(entry.fd) == FILE or not ours or not theirs:
        return False
    others = [it for it in context.found if it.subject[0] == "completion" and it.ours == theirs and it.theirs == ours]
    return any(other.op == READ and context.object_of(other.fd) == at
               for it in others for other in context.of_user(it.subject[1]))


def lost_counter(context, entry):
    """Whether an earlier READ of the same eventfd took its counter, and then met the end of the memory."""
    at = context.object_of(entry.fd)
    earlier = context.entries[:context.entries.index(entry)]
    reads = [it for it in earlier if it.op == READ and context.object_of(it.fd) == at]
    return context.kind_of(entry.fd) == EVENTFD and any(it.addr < MEMORY < it.addr + min(it.len, 8) for it in reads)


def failed_fsync(context, entry):
    """Whether an FSYNC failed that is earlier in a request's chain."""
    rows = [row for row in context.rows if row.entry == entry]
    return any(other.entry.op == FSYNC and (other.result or 0) < 0 and other.unit == row.unit and other.number < row.number
               for row in rows for other in context.rows)


def longer_drain(context, entry, ours, theirs):
    """Whether a kernel still holds a request that completed here, after a drain, and an earlier one is open."""
    earlier = context.entries[:context.entries.index(entry)]
    completed = {user for user, *_ in context.outcome.completions}
    is_open = any(it.user_data not in completed for it in earlier)
    return bool(ours) and not theirs and is_open and any(it.flags & DRAIN for it in earlier)


def late_drained(context):
    """Returns the units next after a chain whose drain is on a later row than its first."""
    units = list(dict.fromkeys(row.unit for row in context.rows))
    late = {row.unit for before, row in zip(context.rows, context.rows[1:])
            if row.entry.flags & DRAIN and row.unit == before.unit}
    return {after for before, after in zip(units, units[1:]) if before in late}


def chain_after_drain(context, entry, ours, theirs):
    """Whether a kernel holds a request that completed here until the chain after a drain has completed."""
    units = late_drained(context)
    completed = {user for user, *_ in context.outcome.completions}
    is_open = [row.number for row in context.rows if row.unit in units and row.entry.user_data not in completed]
    rows = [row.number for row in context.rows if row.entry == entry]
    return bool(ours and is_open) and not theirs and any(number > min(is_open) for number in rows)


def counts_more(context, entry, ours, theirs):
    """Whether completions that a TIMEOUT counts on a kernel alone may have met it, or not."""
    canceled = any(row.entry.op == TIMEOUT and row.result == ECANCELED for row in context.rows)
    return entry.op == TIMEOUT and entry.off and 0 in (ours + theirs) and (canceled or context.has(LINK_TIMEOUT))


def counts_its_submission(context, entry, ours, theirs):
    """Whether a TIMEOUT counts, on a kernel alone, completions of earlier requests of its own submission."""
    rows = [row for row in context.rows if row.entry == entry]
    earlier = [other for row in rows for other in context.rows if other.taken == row.taken and other.number < row.number]
    return entry.op == TIMEOUT and entry.off and theirs == [0] and ours != theirs and any(it.result is not None for it in earlier)


def finds_itself(entry, ours, theirs):
    """Whether a worker carries out a cancel that matches itself."""
    own = entry.opflags & 2 or entry.addr == entry.user_data
    return entry.op == CANCEL and own and ours == [ENOENT] and theirs == [EALREADY]


def before_worker(context, entry, ours, theirs):
    """Whether a removal came before a worker had issued the request with IOSQE_ASYNC that it removes here."""
    for removal in (it for it in context.entries if it.op in REMOVALS):
        targets = [it for it in context.entries if it is not removal and it.flags & ASYNC and meets(removal, it)]
        if entry is removal and targets and theirs == [ENOENT] or entry in targets and ours == [ECANCELED] and not theirs:
            return True
    return False


def name_of_completion(context, it):
    """Returns the item that explains the completions of a user_data, or an empty text."""
    ours, theirs = it.ours, it.theirs
    for entry in context.of_user(it.subject[1]):
        kind = context.kind_of(entry.fd)
        items = [*by_fields(entry, ours, theirs), *by_transfer(entry, ours, theirs, kind), *by_wait(entry, ours, theirs, kind),
                 ("failed-fsync", ours == [ECANCELED] and failed_fsync(context, entry)),
                 ("full-eventfd", full_eventfd(context, entry, ours, theirs)),
                 ("partial-buffer", lost_counter(context, entry)),
                 ("waiting-order", overtakes(context, entry, ours, theirs)),
                 ("youngest-first", several_matches(context, entry)),
                 ("completion-clock", counts_more(context, entry, ours, theirs)),
                 ("submission-count", counts_its_submission(context, entry, ours, theirs)),
                 ("cancel-itself", finds_itself(entry, ours, theirs)),
                 ("prompt-issue", before_worker(context, entry, ours, theirs)),
                 ("worker-order", min([*ours, *theirs, 0]) == 0 and ours and theirs and after_worker(context, entry)),
                 ("chain-after-drain", chain_after_drain(context, entry, ours, theirs)),
                 ("longer-drain", longer_drain(context, entry, ours, theirs))]
        for name, holds in items:
            if holds:
                return name
    return ""


# ---- What follows from another difference

def stop_of_submission(context):
    """Returns the item that explains why a submission ends elsewhere, or an empty text."""
    for it in context.found:
        if it.subject[0] == "call" and (name := own_name_of_call(context, it)):
            return name
    if context.outcome.words["sq.dropped"]:
        return "bad-index"
    for it in context.found:
        if it.subject[0] == "completion" and it.name and EINVAL in it.ours + it.theirs:
            return it.name
    if any(context.failed(row) and row.entry.flags & LINKS for row in context.rows) and not context.setup.options & 2:
        return "failing-link"
    return ""


def own_name_of_call(context, it):
    """Returns the item that explains what a call returned by the call itself, or an empty text."""
    _, thread, call = it.subject
    calls = [numbers for kind, numbers, _ in context.setup.threads[thread] if kind in (ENTER, traces.CLOSE)]
    if it.ours == [str(EBUSY)] and it.theirs and it.theirs[0].isdigit():
        return "no-ebusy"
    if it.ours == [str(EINVAL)] and call < len(calls) and len(calls[call]) == 3 and calls[call][2] & ~3:
        return "enter-flags"
    if it.ours == ["waits"] and it.theirs and it.theirs[0].isdigit():
        if context.has_ended_timeout():
            return "timeout-return"
        if reaps_elsewhere(context, thread):
            return "reaped-wait"
    return ""


def reaps_elsewhere(context, thread):
    """Whether another thread reaps completions."""
    others = [program for number, program in enumerate(context.setup.threads) if number != thread]
    return any(kind == traces.REAP for program in others for kind, *_ in program)


def name_of_rest(context, it):
    """Returns the name of a completion that follows from another one: in its chain, on its object, or after a submission."""
    for entry in context.of_user(it.subject[1]):
        row = next((row for row in context.rows if row.entry == entry), None)
        if row:
            for other in context.rows:
                near = other.unit == row.unit or context.object_of(other.entry.fd) == context.object_of(entry.fd) is not None
                if other is not row and near and other.entry.user_data in context.named:
                    return context.named[other.entry.user_data]
    missing = min(len(it.ours), len(it.theirs)) < len(context.of_user(it.subject[1]))
    return stop_of_submission(context) if missing or after_failure(context, it) else ""


def after_failure(context, it):
    """Whether the completions belong to an entry after one that failed as it was submitted."""
    failed = [row.entry for row in context.rows if context.failed(row)]
    first = min((context.entries.index(entry) for entry in failed), default=len(context.entries))
    return any(context.entries.index(entry) > first for entry in context.of_user(it.subject[1]))


def name_of_bytes(context, it):
    """Returns the name of the transfer to which bytes belong."""
    *_, first, end = it.subject
    for entry in context.entries:
        buffer = entry.op == READ and entry.addr < end and first < entry.addr + entry.len
        written = entry.op == WRITE and it.subject[0] == "file" and context.kind_of(entry.fd) == FILE
        if (buffer and it.subject[0] == "memory" or written) and entry.user_data in context.named:
            return context.named[entry.user_data]
        if buffer and it.subject[0] == "memory" and after_worker(context, entry):
            return "worker-order"
    return ""


def name_of_store(context, it):
    """Returns the name of a call that waits on the kernel alone, whose thread stores these bytes of memory here."""
    kind, *_, first, end = it.subject
    for other in context.found:
        if kind == "memory" and other.subject[0] == "call" and other.theirs == ["waits"] and other.name:
            stores = [(numbers[0], raw) for what, numbers, raw in context.setup.threads[other.subject[1]] if what == traces.STORE]
            if any(addr < end and first < addr + len(raw) for addr, raw in stores):
                return other.name
    return ""


def name_of_flush(context):
    """Returns the item that explains why a completion is in the ring here, and in the backlog on the kernel, or the reverse."""
    if len(context.state.sequence()) <= context.setup.completions:
        return ""
    return "poller-timing" if context.setup.options & SQPOLL else "submission-flush"


def name_of_word(context, it):
    if it.subject[1] == "sq.head":
        return stop_of_submission(context)
    if not any(other.subject[0] in ("completion", "call") for other in context.found):
        return name_of_flush(context)
    counted = [it for it in context.found if it.subject[0] == "completion" and len(it.ours) != len(it.theirs)]
    names = {other.name for other in counted}
    calls = [other.name for other in context.found if other.subject[0] == "call"]
    return sorted(names)[0] if names and "" not in names else "".join(calls[:1])


def name_of_missing(context, it):
    """Returns the item that explains why a call waits on the kernel alone: a completion doesn't come there."""
    missing = [other for other in context.found if other.subject[0] == "completion" and len(other.theirs) < len(other.ours)]
    names = {other.name for other in missing}
    return sorted(names)[0] if it.theirs == ["waits"] and names and "" not in names else ""


def name_all(found, run, outcome):
    """Gives each difference the name of the item that explains it, where there is one."""
    context = Context(found, run, outcome)
    kinds = {kind: [it for it in found if it.subject[0] == kind] for kind in ("completion", "call", "word", "memory", "file")}
    for it in kinds["completion"]:
        it.name = name_of_completion(context, it)
        if it.name:
            context.named[it.subject[1]] = it.name
    for it in kinds["completion"]:
        it.name = it.name or name_of_rest(context, it)
        if it.name:
            context.named[it.subject[1]] = it.name
    for it in kinds["call"]:
        it.name = own_name_of_call(context, it) or name_of_missing(context, it) or stop_of_submission(context)
    for it in kinds["word"]:
        it.name = name_of_word(context, it)
    for it in [*kinds["memory"], *kinds["file"]]:
        it.name = name_of_bytes(context, it) or name_of_store(context, it)
