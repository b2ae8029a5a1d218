/* The arguments, the environment and errno of the program keyshow. The Rattle kit has these functions compiled for x86-64 alone: for 64-bit
 * ARM they are those of this file, with glibc. No proof covers them. What they promise is written in the kit's os. */
#include <errno.h>
#include <stdlib.h>
#include <string.h>
#include <sys/types.h>

extern char **environ;

static size_t argument_count;
static char **arguments;

/* (glibc passes the arguments of main to such functions too.) */
__attribute__((constructor)) static void keep_arguments(int count, char **all) {
  argument_count = count;
  arguments = all;
}

/* Copies a text to the front of a room. Returns its length, -1 if there is none, or -2 if it doesn't fit: then the room is full. */
static ssize_t copied(const char *text, char *room, size_t size) {
  size_t length;
  if (text == NULL) return -1;
  length = strlen(text);
  memcpy(room, text, length < size ? length : size);
  return length <= size ? (ssize_t)length : -2;
}

ssize_t rattle_arg(size_t index, char *room, size_t size) {
  return copied(index < argument_count ? arguments[index] : NULL, room, size);
}

ssize_t rattle_env(const char *name, char *room, size_t size) {
  return copied(getenv(name), room, size);
}

ssize_t rattle_env_at(size_t index, char *room, size_t size) {
  char **entry = environ;
  for (; entry != NULL && *entry != NULL && index > 0; index--) entry++;
  return copied(entry != NULL ? *entry : NULL, room, size);
}

int rattle_errno(void) {
  return errno;
}

void rattle_set_errno(int error) {
  errno = error;
}
