/* Tests the functions of c/kit, by what the kit says of its own. It is linked with -Wl,--wrap=malloc, -Wl,--wrap=realloc and -Wl,--wrap=free. */
#define _POSIX_C_SOURCE 200809L
#include "expect.h"
#include "refuse.h"
#include <errno.h>
#include <stdint.h>
#include <stdlib.h>
#include <string.h>
#include <sys/types.h>

struct tried {
  bool ok;
  void *block;
};

struct tried rattle_alloc(size_t size, size_t align);
struct tried rattle_realloc(void *block, size_t kept, size_t size, size_t align);
void rattle_dealloc(void *block);
ssize_t rattle_arg(size_t index, char *room, size_t size);
ssize_t rattle_env(const char *name, char *room, size_t size);
ssize_t rattle_env_at(size_t index, char *room, size_t size);
int rattle_errno(void);
void rattle_set_errno(int error);

extern char **environ;

static void test_blocks(void) {
  size_t align;
  struct tried grown, block = rattle_alloc(100, 1);
  EXPECT(block.ok && block.block != NULL);
  memset(block.block, 'x', 100);
  grown = rattle_realloc(block.block, 100, 100000, 1);
  EXPECT(grown.ok && memcmp(grown.block, "xxxx", 4) == 0 && ((char *)grown.block)[99] == 'x');
  grown = rattle_realloc(grown.block, 100000, 0, 8);
  EXPECT(grown.ok && grown.block != NULL && malloc_usable_size(grown.block) >= 8);
  rattle_dealloc(grown.block);
  for (align = 1; align <= 16; align *= 2) {
    block = rattle_alloc(0, align);
    EXPECT(block.ok && (uintptr_t)block.block % align == 0 && malloc_usable_size(block.block) >= align);
    rattle_dealloc(block.block);
  }
}

static void test_refusals(void) {
  struct tried none, block;
  refuse(1);
  none = rattle_alloc(8, 8);
  EXPECT(!none.ok && none.block != NULL && refused == 1);
  block = rattle_alloc(2, 1);
  memcpy(block.block, "ab", 2);
  refuse(1);
  none = rattle_realloc(block.block, 2, 1000, 1);
  EXPECT(!none.ok && none.block != NULL && memcmp(block.block, "ab", 2) == 0);
  rattle_dealloc(block.block);
  EXPECT(refused == 1 && in_use == 0);
}

/* Texts that fit, that fill the room, and that don't fit. */
static void test_arguments(int count, char **all) {
  char room[4096];
  size_t length = strlen(all[0]);
  int index;
  for (index = 0; index < count; index++) {
    EXPECT(rattle_arg(index, room, sizeof room) == (ssize_t)strlen(all[index]) && memcmp(room, all[index], strlen(all[index])) == 0);
  }
  EXPECT(rattle_arg(count, room, sizeof room) == -1);
  EXPECT(rattle_arg(SIZE_MAX, room, sizeof room) == -1);
  EXPECT(rattle_arg(0, room, length) == (ssize_t)length);
  memset(room, 0, sizeof room);
  EXPECT(rattle_arg(0, room, length - 1) == -2 && memcmp(room, all[0], length - 1) == 0 && room[length - 1] == 0);
  EXPECT(rattle_arg(0, room, 0) == -2);
}

static void test_environment(void) {
  char room[4], *none = NULL, *two[] = { "A=1", "LONG=1", NULL };
  EXPECT(setenv("HED_TEST", "abcd", 1) == 0 && setenv("HED_EMPTY", "", 1) == 0 && unsetenv("HED_NONE") == 0);
  EXPECT(rattle_env("HED_TEST", room, 4) == 4 && memcmp(room, "abcd", 4) == 0);
  EXPECT(rattle_env("HED_TEST", room, 3) == -2);
  EXPECT(rattle_env("HED_EMPTY", room, 0) == 0);
  EXPECT(rattle_env("HED_NONE", room, 4) == -1);
  environ = two;
  EXPECT(rattle_env_at(0, room, 4) == 3 && memcmp(room, "A=1", 3) == 0);
  EXPECT(rattle_env_at(1, room, 4) == -2 && memcmp(room, "LONG", 4) == 0);
  EXPECT(rattle_env_at(2, room, 4) == -1 && rattle_env_at(SIZE_MAX, room, 4) == -1);
  environ = &none;
  EXPECT(rattle_env_at(0, room, 4) == -1);
  environ = NULL;
  EXPECT(rattle_env_at(0, room, 4) == -1);
}

static void test_errno(void) {
  rattle_set_errno(EAGAIN);
  EXPECT(errno == EAGAIN);
  errno = EINTR;
  EXPECT(rattle_errno() == EINTR);
}

int main(int count, char **all) {
  TEST(test_blocks());
  TEST(test_refusals());
  TEST(test_arguments(count, all));
  TEST(test_environment());
  TEST(test_errno());
  return expected("test_kit");
}
