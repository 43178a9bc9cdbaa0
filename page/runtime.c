/* page/runtime.c: what the proved code asks of the machine that it runs on, for WebAssembly with
 * addresses of 64 bits: a heap, a product of 128 bits, and the comparison of bytes. None of this is
 * proved. It stands in the place of the C library's part under the program. */

typedef __SIZE_TYPE__ size;
typedef __UINT64_TYPE__ u64;

enum { HEAD = 16, SMALLEST = 16, LISTS = 256, PAGE = 65536, PAGES = 65536 };

/* A block is this head and the bytes behind it, which start at a multiple of 16 since it does. */
struct Block {
  size bytes;
  struct Block *next;
};
_Static_assert(sizeof(struct Block) == HEAD, "the head of a block");

/* What the proved code takes: whether there is memory, and where. `ok` fills its eight bytes. */
struct Tried {
  u64 ok;
  void *at;
};

extern unsigned char __heap_base;
static unsigned char *top = &__heap_base;
static struct Block *freed[LISTS];
static unsigned char nothing[SMALLEST];

/* Sizes are rounded up to one of four for each power of two, so that a freed block serves again.
 * Each such size has a list of its own. */
static size rounded(size wanted, size *list) {
  if (wanted <= 4 * SMALLEST) {
    *list = wanted ? (wanted - 1) / SMALLEST : 0;
    return (*list + 1) * SMALLEST;
  }
  int shift = 61 - __builtin_clzl(wanted - 1);
  size quarters = (wanted - 1) >> shift;
  *list = 4 * (size)(shift - 3) + (quarters & 3);
  return (quarters + 1) << shift;
}

/* Whether the memory grew. One that can't answers -1, as 64 bits or as 32, and both are more than
 * any number of pages. */
static int grow(size pages) {
  return pages < PAGES && __builtin_wasm_memory_grow(0, pages) < PAGES;
}

/* Moves the end of what is used by so many bytes. To grow is slow, so the memory grows by half of
 * what it has; where that is refused, by what is wanted. */
static int raise_top(size bytes) {
  size held = __builtin_wasm_memory_size(0);
  size left = held * PAGE - (size)top;
  if (bytes > left) {
    size pages = (bytes - left - 1) / PAGE + 1;
    if (!(pages < held / 2 && grow(held / 2)) && !grow(pages)) return 0;
  }
  top += bytes;
  return 1;
}

struct Tried rattle_alloc(size wanted, size alignment) {
  (void)alignment; /* it divides 16 */
  size list;
  if (wanted >= (size)PAGES * PAGE) return (struct Tried){0, nothing};
  size bytes = rounded(wanted, &list);
  struct Block *block = freed[list];
  if (block) {
    freed[list] = block->next;
    return (struct Tried){1, block + 1};
  }
  block = (struct Block *)top;
  if (!raise_top(HEAD + bytes)) return (struct Tried){0, nothing};
  block->bytes = bytes;
  return (struct Tried){1, block + 1};
}

void rattle_dealloc(void *at) {
  struct Block *block = (struct Block *)at - 1;
  size list;
  rounded(block->bytes, &list);
  block->next = freed[list];
  freed[list] = block;
}

/* The last block grows where it is. Of another the first `kept` bytes move, and it is freed. */
struct Tried rattle_realloc(void *at, size kept, size wanted, size alignment) {
  struct Block *block = (struct Block *)at - 1;
  if (wanted <= block->bytes) return (struct Tried){1, at};
  if (wanted >= (size)PAGES * PAGE) return (struct Tried){0, nothing};
  if ((unsigned char *)at + block->bytes == top) {
    size list, bytes = rounded(wanted, &list);
    if (!raise_top(bytes - block->bytes)) return (struct Tried){0, nothing};
    block->bytes = bytes;
    return (struct Tried){1, at};
  }
  struct Tried moved = rattle_alloc(wanted, alignment);
  if (!moved.ok) return moved;
  __builtin_memcpy(moved.at, at, kept);
  rattle_dealloc(at);
  return moved;
}

/* Room for what the page hands in: its address, or 0 where there is none. */
void *page_alloc(size wanted) {
  struct Tried room = rattle_alloc(wanted, HEAD);
  return room.ok ? room.at : 0;
}

int memcmp(const void *one, const void *other, size count) {
  const unsigned char *left = one, *right = other;
  for (; count; count--, left++, right++)
    if (*left != *right) return *left - *right;
  return 0;
}

/* The product of two numbers of 128 bits, as the compiler's library has it: of the low halves by
 * four products of 32 bits, and of each high half with the other's low one. */
__int128 __multi3(__int128 one, __int128 other) {
  u64 a = (u64)one, b = (u64)other, mask = 0xffffffff;
  u64 low = (a & mask) * (b & mask), left = (a >> 32) * (b & mask), right = (a & mask) * (b >> 32);
  u64 middle = (low >> 32) + (left & mask) + (right & mask);
  u64 high = (a >> 32) * (b >> 32) + (left >> 32) + (right >> 32) + (middle >> 32);
  high += (u64)(one >> 64) * b + a * (u64)(other >> 64);
  return (__int128)((unsigned __int128)high << 64 | (middle << 32) | (low & mask));
}
