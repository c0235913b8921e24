/*
 * Stands between the library and malloc, in tests: refuses an allocation, and counts the blocks that the library has.
 *
 *     tools/build-library
 *     cc -shared -fPIC -o refusals.so examples/embed/refusals.c -Wl,-u,migwelun_make -Wl,--wrap=malloc,--wrap=realloc,--wrap=free out/libmigwelun.a
 *
 * refusals.so has all functions of the library. One thread calls them.
 */
#include <stddef.h>

/* How many allocations are given before one is refused; -1, and none is. It is -1 once one was. */
long migwelun_left = -1;
/* How many blocks there are. */
long migwelun_blocks = 0;

void *__real_malloc(size_t size);
void *__real_realloc(void *at, size_t size);
void __real_free(void *at);

static int is_refused(void) {
    return migwelun_left >= 0 && migwelun_left-- == 0;
}

static void *counted(void *from, void *at) {
    if (from == NULL && at != NULL) migwelun_blocks++;
    return at;
}

void *__wrap_malloc(size_t size) {
    return is_refused() ? NULL : counted(NULL, __real_malloc(size));
}

void *__wrap_realloc(void *at, size_t size) {
    return is_refused() ? NULL : counted(at, __real_realloc(at, size));
}

void __wrap_free(void *at) {
    if (at != NULL) migwelun_blocks--;
    __real_free(at);
}
