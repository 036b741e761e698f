/* What the archive takes memory with: three functions over the C library's. Each alignment divides 16,
   which malloc gives by itself on the machines of 64 bits that the archive is built for. A block of no
   bytes has an address of its own. */
#include <stdbool.h>
#include <stddef.h>
#include <stdlib.h>

/* Whether there is memory, and where: an address that isn't null, and that nobody reads where there
   is none. */
struct tried {
  bool is_there;
  void *block;
};

struct tried rattle_alloc(size_t size, size_t align);
struct tried rattle_realloc(void *block, size_t kept, size_t size, size_t align);
void rattle_dealloc(void *block);

static char nowhere;

static struct tried tried(void *block) {
  if (block == NULL) return (struct tried){false, &nowhere};
  return (struct tried){true, block};
}

struct tried rattle_alloc(size_t size, size_t align) {
  return tried(malloc(size == 0 ? align : size));
}

/* Where it fails the block is as it was. */
struct tried rattle_realloc(void *block, size_t kept, size_t size, size_t align) {
  (void)kept;
  return tried(realloc(block, size == 0 ? align : size));
}

void rattle_dealloc(void *block) { free(block); }
