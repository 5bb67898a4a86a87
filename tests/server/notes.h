// Notes of calls, once before a call is made and once after it, as tests/models/crash_images.py reads them: this head,
// then the path, then the bytes of a write.
#define _GNU_SOURCE
#include <pthread.h>
#include <stdint.h>
#include <stdlib.h>
#include <sys/syscall.h>
#include <sys/uio.h>
#include <time.h>
#include <unistd.h>

struct note {
    uint64_t number, when, at, length;
    int64_t result;
    uint16_t path_length;
    char kind;
    char is_end;
    uint32_t bytes_length;
} __attribute__((packed));

// Adds a note to a file in its turn, with its number and its time. There may be no file.
static void put_note(int file, struct note *note, const char *path, const void *bytes, size_t length) {
    static pthread_mutex_t turn = PTHREAD_MUTEX_INITIALIZER;
    static uint64_t calls;
    struct timespec now;
    pthread_mutex_lock(&turn);
    if (!note->is_end) {
        note->number = ++calls;
    }
    // (past a library that makes the clock go faster)
    syscall(SYS_clock_gettime, CLOCK_MONOTONIC, &now);
    note->when = (uint64_t)now.tv_sec * 1000000000 + (uint64_t)now.tv_nsec;
    note->bytes_length = (uint32_t)length;
    struct iovec parts[3] = {{note, sizeof *note}, {(void *)path, note->path_length}, {(void *)bytes, length}};
    if (file >= 0 && writev(file, parts, 3) != (ssize_t)(sizeof *note + note->path_length + length)) {
        abort();
    }
    pthread_mutex_unlock(&turn);
}
