/* The heap on which the library stands, over malloc, realloc and free. The Rattle kit has these three functions compiled for x86-64 alone:
 * for 64-bit ARM they are those of this file. No proof covers them. What they promise is the contracts of rattle_alloc, rattle_realloc and
 * rattle_dealloc in the kit's libc. */
#include <stdbool.h>
#include <stdlib.h>

/* Whether there is memory, and the block. Without memory the pointer leads to a byte that nobody owns. */
struct tried {
  bool ok;
  void *block;
};

static char nothing;

static struct tried tried(void *block) {
  struct tried answer = { block != NULL, block != NULL ? block : &nothing };
  return answer;
}

/* malloc and realloc may answer a request for no bytes with NULL, so an empty block has as many bytes as its alignment. That is 16 at most,
 * which malloc keeps for every block. */
static size_t wanted(size_t size, size_t align) {
  return size != 0 ? size : align;
}

struct tried rattle_alloc(size_t size, size_t align) {
  return tried(malloc(wanted(size, align)));
}

/* The block keeps its first bytes, as many as the caller says: realloc keeps all that fit. */
struct tried rattle_realloc(void *block, size_t kept, size_t size, size_t align) {
  (void)kept;
  return tried(realloc(block, wanted(size, align)));
}

void rattle_dealloc(void *block) {
  free(block);
}
