// No code: linked before an object whose functions start at multiples of 16, it lets them begin PADDING bytes behind a
// multiple of 64, the length of a line of the processor's caches.
__asm__(".text\n.p2align 6\n.skip " PADDING "\n");
