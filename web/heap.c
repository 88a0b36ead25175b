// The heap of the module, in place of a C library's. Blocks have sizes that are powers of two, with a head of 16 bytes. A
// block that is released goes into the list of its size, and is handed out again from there.
typedef unsigned long u64;

// The memory ends here, so that an address below 0, as of a stack that has no room left, is never in it.
#define MOST_PAGES 32768
#define PAGE 65536
#define HEAD 16
#define LEAST_CLASS 5
#define CLASSES 32

struct allocation {
  u64 succeeded;
  u64 address;
};

extern unsigned char __heap_base;
static u64 top, end, released[CLASSES];
static unsigned char no_block;

void *memcpy(void *to, const void *from, u64 size) { return __builtin_memcpy(to, from, size); }
void *memmove(void *to, const void *from, u64 size) { return __builtin_memmove(to, from, size); }
void *memset(void *to, int byte, u64 size) { return __builtin_memset(to, byte, size); }

static u64 *class_at(u64 address) { return (u64 *)(address - HEAD); }
static u64 *next_at(u64 address) { return (u64 *)(address - HEAD + 8); }

// Returns the least power of two that has room for a block and its head.
static u64 class_for(u64 size) {
  u64 class = LEAST_CLASS;
  while (((u64)1 << class) < size + HEAD) class += 1;
  return class;
}

// Grows the memory so that it has this many more bytes after the top, and returns whether it could.
static int make_room(u64 size) {
  if (!top) {
    top = ((u64)&__heap_base + 15) & ~(u64)15;
    end = (u64)__builtin_wasm_memory_size(0) * PAGE;
  }
  if (top + size <= end) return 1;
  u64 pages = (top + size - end + PAGE - 1) / PAGE;
  if (end / PAGE + pages > MOST_PAGES || __builtin_wasm_memory_grow(0, pages) == (u64)-1) return 0;
  end += pages * PAGE;
  return 1;
}

// Whether a block of this size and its head are less than the whole memory, so that the block has a class.
static int fits(u64 size) { return size < (u64)MOST_PAGES * PAGE - HEAD; }

// Returns the address of a new block, or 0 where the memory has no room.
__attribute__((export_name("allocate"))) u64 allocate(u64 size) {
  if (!fits(size)) return 0;
  u64 class = class_for(size), address = released[class];
  if (address) {
    released[class] = *next_at(address);
    return address;
  }
  if (!make_room((u64)1 << class)) return 0;
  address = top + HEAD;
  top += (u64)1 << class;
  *class_at(address) = class;
  return address;
}

static void release(u64 address) {
  u64 class = *class_at(address);
  *next_at(address) = released[class];
  released[class] = address;
}

static struct allocation result_of(u64 address) {
  struct allocation made = {address != 0, address ? address : (u64)&no_block};
  return made;
}

// The three calls of a Rattle program. A size of 0 asks for the alignment in bytes.
struct allocation rattle_alloc(u64 size, u64 alignment) { return result_of(allocate(size ? size : alignment)); }

void rattle_dealloc(void *block) { release((u64)block); }

struct allocation rattle_realloc(void *block, u64 kept, u64 size, u64 alignment) {
  u64 old = (u64)block, wanted = size ? size : alignment;
  if (fits(wanted) && class_for(wanted) == *class_at(old)) return result_of(old);
  u64 new = allocate(wanted);
  if (!new) return result_of(0);
  __builtin_memcpy((void *)new, block, kept < wanted ? kept : wanted);
  release(old);
  return result_of(new);
}

void *malloc(u64 size) { return (void *)allocate(size ? size : 1); }

void free(void *block) {
  if (block) release((u64)block);
}
