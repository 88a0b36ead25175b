// Functions of the C library that one of the two programs calls: the proved one, or the one that is compiled without a proof.
typedef unsigned long u64;

long write(int fd, const void *bytes, u64 count);

long __write(int fd, const void *bytes, u64 count) { return write(fd, bytes, count); }

// What a leaf of CPUID says, and what of that the system supports: the program's start asks for the features of x86-64-v2. What
// it uses of them tools/web/retarget.py replaces.
static const unsigned every_feature[8] = {-1U, -1U, -1U, -1U, -1U, -1U, -1U, -1U};

const void *__x86_get_cpuid_feature_leaf(unsigned leaf) {
  (void)leaf;
  return every_feature;
}

// The texts of the system's errors, which the program never prints: only code that isn't reached calls this.
int __xpg_strerror_r(int error, char *text, u64 size) {
  (void)error;
  (void)text;
  (void)size;
  __builtin_trap();
}
