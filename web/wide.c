// Arithmetic of 128-bit numbers, which WebAssembly lacks: what a compiler's own library has elsewhere.
typedef unsigned long u64;
typedef unsigned __int128 u128;
typedef __int128 i128;

union wide {
  u128 whole;
  struct {
    u64 low, high;
  } half;
};

static u128 of_halves(u64 low, u64 high) {
  union wide made;
  made.half.low = low;
  made.half.high = high;
  return made.whole;
}

static u64 low_of(u128 number) { return (union wide){number}.half.low; }
static u64 high_of(u128 number) { return (union wide){number}.half.high; }

// Returns the whole product of two 64-bit numbers, from the products of their halves.
static u128 product(u64 a, u64 b) {
  u64 mask = 0xffffffff, a0 = a & mask, a1 = a >> 32, b0 = b & mask, b1 = b >> 32;
  u64 low = a0 * b0, one = a1 * b0 + (low >> 32), other = a0 * b1 + (one & mask);
  return of_halves((other << 32) | (low & mask), a1 * b1 + (one >> 32) + (other >> 32));
}

u128 __multi3(u128 a, u128 b) {
  u128 made = product(low_of(a), low_of(b));
  return of_halves(low_of(made), high_of(made) + low_of(a) * high_of(b) + high_of(a) * low_of(b));
}

u128 __ashlti3(u128 number, int bits) {
  u64 low = low_of(number), high = high_of(number);
  if (bits == 0) return number;
  if (bits >= 64) return of_halves(0, low << (bits - 64));
  return of_halves(low << bits, (high << bits) | (low >> (64 - bits)));
}

u128 __lshrti3(u128 number, int bits) {
  u64 low = low_of(number), high = high_of(number);
  if (bits == 0) return number;
  if (bits >= 64) return of_halves(high >> (bits - 64), 0);
  return of_halves((low >> bits) | (high << (64 - bits)), high >> bits);
}

i128 __ashrti3(i128 number, int bits) {
  u64 low = low_of((u128)number), high = high_of((u128)number), sign = (u64)((long)high >> 63);
  if (bits == 0) return number;
  if (bits >= 64) return (i128)of_halves((u64)((long)high >> (bits - 64)), sign);
  return (i128)of_halves((low >> bits) | (high << (64 - bits)), (u64)((long)high >> bits));
}

// Divides bit by bit from the highest on. Returns the quotient, and writes the remainder.
static u128 divide(u128 number, u128 by, u128 *rest) {
  u128 quotient = 0, left = 0;
  for (int bit = 127; bit >= 0; bit -= 1) {
    u64 half = bit >= 64 ? high_of(number) : low_of(number);
    left = (left << 1) | ((half >> (bit & 63)) & 1);
    quotient <<= 1;
    if (left >= by) {
      left -= by;
      quotient |= 1;
    }
  }
  *rest = left;
  return quotient;
}

u128 __udivti3(u128 number, u128 by) {
  u128 rest;
  return divide(number, by, &rest);
}

u128 __umodti3(u128 number, u128 by) {
  u128 rest;
  divide(number, by, &rest);
  return rest;
}
