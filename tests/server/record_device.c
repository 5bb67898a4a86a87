// record_device FOLDER CONTENT NOTES WRITE_MICROSECONDS FLUSH_MICROSECONDS: serves CONTENT as the file FOLDER/device by
// FUSE, past the page cache, until FOLDER is unmounted. Each write and each sync of that file has two notes in NOTES, one
// when it comes, with the bytes of a write, and one before it is answered. The notes stand in the order of their times.
// Each write and each sync takes a drawn part of these microseconds longer, as if a disk did.
//
// A loop device over that file sends its flushes as syncs. Discards are refused, so that nothing but writes changes it.
#include "notes.h"

#define FUSE_USE_VERSION 312
#include <errno.h>
#include <fcntl.h>
#include <fuse.h>
#include <stdio.h>
#include <string.h>
#include <sys/stat.h>

static int content, notes;
static unsigned write_wait, flush_wait;

static void take_long(unsigned most) {
    static __thread unsigned seed;
    if (seed == 0) {
        seed = (unsigned)(uintptr_t)&seed | 1;
    }
    if (most > 0) {
        usleep((useconds_t)rand_r(&seed) % most);
    }
}

static void *begin(struct fuse_conn_info *connection, struct fuse_config *settings) {
    (void)connection;
    settings->nullpath_ok = 1;
    settings->direct_io = 1;
    return NULL;
}

static int look(const char *path, struct stat *its, struct fuse_file_info *file) {
    if (fstat(content, its) != 0) {
        return -errno;
    }
    if (file == NULL && path != NULL && strcmp(path, "/") == 0) {
        its->st_mode = S_IFDIR | 0700;
        return 0;
    }
    return file != NULL || (path != NULL && strcmp(path, "/device") == 0) ? 0 : -ENOENT;
}

static int read_content(const char *path, char *bytes, size_t count, off_t at, struct fuse_file_info *file) {
    (void)path, (void)file;
    ssize_t found = pread(content, bytes, count, at);
    return found < 0 ? -errno : (int)found;
}

static int write_content(const char *path, const char *bytes, size_t count, off_t at, struct fuse_file_info *file) {
    (void)path, (void)file;
    struct note note = {.at = (uint64_t)at, .length = count, .kind = 'w'};
    put_note(notes, &note, NULL, bytes, count);
    if (pwrite(content, bytes, count, at) != (ssize_t)count) {
        abort();
    }
    take_long(write_wait);
    note.is_end = 1;
    put_note(notes, &note, NULL, NULL, 0);
    return (int)count;
}

static int flush_content(const char *path, int only_data, struct fuse_file_info *file) {
    (void)path, (void)only_data, (void)file;
    struct note note = {.kind = 'f'};
    put_note(notes, &note, NULL, NULL, 0);
    take_long(flush_wait);
    note.is_end = 1;
    put_note(notes, &note, NULL, NULL, 0);
    return 0;
}

int main(int count, char **words) {
    if (count != 6) {
        fprintf(stderr, "usage: record_device FOLDER CONTENT NOTES WRITE_MICROSECONDS FLUSH_MICROSECONDS\n");
        return 2;
    }
    content = open(words[2], O_RDWR | O_CLOEXEC);
    notes = open(words[3], O_WRONLY | O_CREAT | O_APPEND | O_CLOEXEC, 0600);
    if (content < 0 || notes < 0) {
        fprintf(stderr, "record_device: cannot open %s or %s\n", words[2], words[3]);
        return 1;
    }
    write_wait = (unsigned)strtoul(words[4], NULL, 10);
    flush_wait = (unsigned)strtoul(words[5], NULL, 10);
    static const struct fuse_operations calls_of = {
        .init = begin, .getattr = look, .read = read_content, .write = write_content, .fsync = flush_content};
    char *its[] = {words[0], "-f", "-o", "fsname=record_device,max_threads=16", words[1], NULL};
    return fuse_main(5, its, &calls_of, NULL);
}
