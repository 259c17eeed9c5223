/* Counts the memory that a program has. Preloaded into it, it writes to standard error, at each write to standard output,
   how many bytes lie in the blocks that were given out and not taken back. */
#define _GNU_SOURCE
#include <dlfcn.h>
#include <malloc.h>
#include <stdio.h>
#include <stdlib.h>
#include <sys/syscall.h>
#include <unistd.h>

static long live;

void *malloc(size_t size) {
  static void *(*next)(size_t);
  if (!next) next = (void *(*)(size_t))dlsym(RTLD_NEXT, "malloc");
  void *block = next(size);
  live += (long)malloc_usable_size(block);
  return block;
}

void free(void *block) {
  static void (*next)(void *);
  if (!next) next = (void (*)(void *))dlsym(RTLD_NEXT, "free");
  live -= (long)malloc_usable_size(block);
  next(block);
}

void *realloc(void *block, size_t size) {
  static void *(*next)(void *, size_t);
  if (!next) next = (void *(*)(void *, size_t))dlsym(RTLD_NEXT, "realloc");
  long before = (long)malloc_usable_size(block);
  void *moved = next(block, size);
  if (moved) live += (long)malloc_usable_size(moved) - before;
  return moved;
}

ssize_t write(int file, const void *bytes, size_t count) {
  if (file == 1) {
    char text[24];
    int length = snprintf(text, sizeof text, "%ld\n", live);
    syscall(SYS_write, 2, text, (size_t)length);
  }
  return syscall(SYS_write, file, bytes, count);
}
