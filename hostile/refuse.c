// Refuses one allocation of a program: that of the number REFUSE, counted from 1 over all its threads. Preload it into the program. With
// REFUSE=0 nothing is refused. The number of allocations stands in the first eight bytes of the file that COUNT names, which has so many. Those
// that libraries make are not counted.
#define _GNU_SOURCE
#include <fcntl.h>
#include <link.h>
#include <stdatomic.h>
#include <stdint.h>
#include <stdlib.h>
#include <sys/mman.h>

extern void *__libc_malloc(size_t size);
extern void *__libc_realloc(void *old, size_t size);

static atomic_ulong *count;
static unsigned long refused;
static uintptr_t begin, end;

// The first object is the program itself.
static int look(struct dl_phdr_info *object, size_t size, void *data) {
    (void)size;
    (void)data;
    for (int i = 0; i < object->dlpi_phnum; i++) {
        const ElfW(Phdr) *part = &object->dlpi_phdr[i];
        if (part->p_type == PT_LOAD && (part->p_flags & PF_X)) {
            begin = object->dlpi_addr + part->p_vaddr;
            end = begin + part->p_memsz;
        }
    }
    return 1;
}

__attribute__((constructor)) static void start(void) {
    const char *number = getenv("REFUSE");
    refused = number ? strtoul(number, NULL, 10) : 0;
    const char *name = getenv("COUNT");
    int file = name ? open(name, O_RDWR) : -1;
    void *place = mmap(NULL, sizeof *count, PROT_READ | PROT_WRITE, MAP_SHARED, file, 0);
    if (place == MAP_FAILED) abort();
    count = place;
    dl_iterate_phdr(look, NULL);
}

static int is_refused(void *caller) {
    uintptr_t at = (uintptr_t)caller;
    return at >= begin && at < end && atomic_fetch_add(count, 1) + 1 == refused;
}

void *malloc(size_t size) {
    return is_refused(__builtin_return_address(0)) ? NULL : __libc_malloc(size);
}

void *realloc(void *old, size_t size) {
    return is_refused(__builtin_return_address(0)) ? NULL : __libc_realloc(old, size);
}
