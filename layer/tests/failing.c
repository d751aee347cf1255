/* failing.c: allocations that fail. Linked into the layer, this counts calls of malloc and the like. The one with the number
 * KVERIFY_TEST_FAIL fails; of 0 none does, and their number is told at the end. With --wrap it has those of the layer and of libkverify.a;
 * with OWN, by which the layer's files are compiled with -Dmalloc=own_malloc and the like, those of the layer alone. */
#ifdef OWN
#undef malloc
#undef calloc
#undef realloc
#undef strdup
#define REAL(name) name
#define COUNTED(name) own_##name
#else
#define REAL(name) __real_##name
#define COUNTED(name) __wrap_##name
#endif
#include <stdio.h>
#include <stdlib.h>
#include <string.h>

void *REAL(malloc)(size_t n);
void *REAL(calloc)(size_t n, size_t size);
void *REAL(realloc)(void *old, size_t n);
char *REAL(strdup)(const char *text);
void *COUNTED(malloc)(size_t n);
void *COUNTED(calloc)(size_t n, size_t size);
void *COUNTED(realloc)(void *old, size_t n);
char *COUNTED(strdup)(const char *text);

static long number;

static long which(void) {
    const char *word = getenv("KVERIFY_TEST_FAIL");
    return word ? atol(word) : 0;
}

static int fails(void) {
    return __atomic_add_fetch(&number, 1, __ATOMIC_RELAXED) == which();
}

void *COUNTED(malloc)(size_t n) {
    return fails() ? NULL : REAL(malloc)(n);
}

void *COUNTED(calloc)(size_t n, size_t size) {
    return fails() ? NULL : REAL(calloc)(n, size);
}

void *COUNTED(realloc)(void *old, size_t n) {
    return fails() ? NULL : REAL(realloc)(old, n);
}

char *COUNTED(strdup)(const char *text) {
    return fails() ? NULL : REAL(strdup)(text);
}

__attribute__((destructor)) static void tell(void) {
    if (!which()) fprintf(stderr, "allocations: %ld\n", number);
}
