// Preloaded, it counts, notes, delays and refuses calls of a program, each by variables of the environment:
//
// memory    MEMORY_AT=n: the n-th request is refused, and the file MEMORY_MARK is made. MEMORY_COUNT_TO: before each write
//           to standard output, how many requests there were is added to this file. MEMORY_MOST=n or BREAK_LARGE=n: none
//           above n bytes.
// threads   THREAD_AT=n: the n-th thread is refused, and the file THREAD_MARK is made.
// streams   INPUT_FAILS=n or INPUT_STARVES=n: standard input, and each file open for reading alone, fails after n bytes for
//           the device or for want of memory. OUTPUT_ROOM=n, ERROR_ROOM=n: then there is no space left.
// device    DEVICE_AT=n: of the reads, writes and data syncs at a place the n-th fails; with DEVICE_HOW=stop the program
//           ends in its place, with torn in the middle of a write. DEVICE_COUNT_TO: at the end, how many there were.
// notes     RECORD_TO: each call on what stands below the folder RECORD_UNDER (a real path) is noted there, once before it
//           is made, with the bytes of a write, and once after it, with its result; crash_images.py reads it. RECORD_READS:
//           reads too, with the thread in place of `at`. RECORD_SLOW=n: what is noted takes n microseconds longer.
//           FAIL_SYNC=n: each n-th fdatasync (of files whose path has FAIL_NAME) fails. FULL_AT=n: from the n-th
//           write on none makes its file longer; the first of them writes half. SYNC_WAITS: each fdatasync waits as long as
//           this file is there. LOCK_FAILS: no file can be locked.
// holds     HOLD_SYNC: while this FIFO is there, an fdatasync of a file whose path has HOLD_NAME first reads it to its end.
// time      FAST=n: what the program waits for, and the clock that it waits by, go n times as fast. CLOCK_AT: that
//           clock stands at the nanoseconds (8 bytes) that this file has; FAST then changes what is waited for alone.
// sockets   FAIL_ACCEPT=n: the first n accepts fail, and for each the file ACCEPT_MARK gets a line. ENDED_FIRST=n: the
//           first n connections that are accepted have ended: nobody is at their other end.
// broken    BREAK_..: a server that is wrong in one way, as tests/rows/broken.txt says of each. A
//           number is that of FAST, or what comes after n, each n-th, or of more than n bytes.
#include "notes.h"

#include <arpa/inet.h>
#include <dlfcn.h>
#include <errno.h>
#include <fcntl.h>
#include <malloc.h>
#include <netinet/tcp.h>
#include <sched.h>
#include <signal.h>
#include <stdarg.h>
#include <stdio.h>
#include <string.h>
#include <sys/epoll.h>
#include <sys/file.h>
#include <sys/mman.h>
#include <sys/resource.h>
#include <sys/socket.h>
#include <sys/stat.h>

// The function of this name that would be called without this library.
#define NEXT(name) \
    ({ \
        static __typeof__(name) *next; \
        if (next == NULL) { \
            next = (__typeof__(name) *)dlsym(RTLD_NEXT, #name); \
        } \
        next; \
    })

static uint64_t number_of(const char *name) {
    const char *said = getenv(name);
    return said == NULL ? 0 : strtoull(said, NULL, 10);
}

static int is_said(const char *name, const char *what) {
    const char *said = getenv(name);
    return said != NULL && strcmp(said, what) == 0;
}

static int refuse(int cause) {
    errno = cause;
    return -1;
}

// Adds a line with a number to a file, by calls that request no memory.
static void tell(const char *path, uint64_t number) {
    char line[24];
    int size = snprintf(line, sizeof line, "%lu\n", (unsigned long)number);
    int file = path == NULL ? -1 : openat(AT_FDCWD, path, O_CREAT | O_WRONLY | O_APPEND, 0600);
    if (file >= 0 && NEXT(write)(file, line, (size_t)size) != size) {
        abort();
    }
    close(file);
}

static int notes = -1;
static volatile int64_t *clock_at;

// Maps the file of the clock.
static void begin_clock(const char *path) {
    int file = openat(AT_FDCWD, path, O_RDONLY | O_CLOEXEC);
    clock_at = mmap(NULL, sizeof *clock_at, PROT_READ, MAP_SHARED, file, 0);
    close(file);
    if (clock_at == MAP_FAILED) {
        abort();
    }
}

__attribute__((constructor)) static void begin_run(void) {
    const char *to = getenv("RECORD_TO");
    if (getenv("CLOCK_AT") != NULL) {
        begin_clock(getenv("CLOCK_AT"));
    }
    if (to != NULL) {
        int file = openat(AT_FDCWD, to, O_WRONLY | O_CREAT | O_APPEND | O_CLOEXEC, 0600);
        notes = fcntl(file, F_DUPFD_CLOEXEC, 500);
        close(file);
    }
    if (getenv("BREAK_SETTING") != NULL) {
        unsetenv(getenv("BREAK_SETTING"));
    }
    struct rlimit files;
    if (getenv("BREAK_FILES") != NULL && getrlimit(RLIMIT_NOFILE, &files) == 0) {
        files.rlim_cur = files.rlim_max;
        setrlimit(RLIMIT_NOFILE, &files);
    }
}

static uint64_t requests;

static int is_refused(size_t size) {
    uint64_t number = __atomic_add_fetch(&requests, 1, __ATOMIC_SEQ_CST);
    uint64_t most = number_of(getenv("BREAK_LARGE") == NULL ? "MEMORY_MOST" : "BREAK_LARGE");
    if (number == number_of("MEMORY_AT")) {
        tell(getenv("MEMORY_MARK"), number);
    } else if (most == 0 || size <= most) {
        return 0;
    }
    errno = ENOMEM;
    return 1;
}

void *malloc(size_t size) {
    return is_refused(size) ? NULL : NEXT(malloc)(size);
}

void *realloc(void *old, size_t size) {
    return is_refused(size) ? NULL : NEXT(realloc)(old, size);
}

void free(void *piece) {
    static void *kept;
    uint64_t least = number_of("BREAK_KEEP");
    if (least > 0 && kept == NULL && malloc_usable_size(piece) >= least) {
        kept = piece;
        return;
    }
    NEXT(free)(piece);
}

int pthread_create(pthread_t *thread, const pthread_attr_t *attributes, void *(*start)(void *), void *argument) {
    static uint64_t asked;
    uint64_t at = number_of("THREAD_AT");
    if (at == 0 || __atomic_add_fetch(&asked, 1, __ATOMIC_SEQ_CST) != at) {
        return NEXT(pthread_create)(thread, attributes, start, argument);
    }
    tell(getenv("THREAD_MARK"), at);
    return EAGAIN;
}

int sched_getaffinity(pid_t whose, size_t size, cpu_set_t *to) {
    int made = NEXT(sched_getaffinity)(whose, size, to);
    if (made == 0 && getenv("BREAK_PROCESSORS") != NULL) {
        memset(to, 0, size);
        for (uint64_t number = 0; number < number_of("BREAK_PROCESSORS"); number++) {
            CPU_SET_S(number, size, to);
        }
    }
    return made;
}

static int is_input(int file) {
    return file == STDIN_FILENO || (file > STDERR_FILENO && (fcntl(file, F_GETFL) & O_ACCMODE) == O_RDONLY);
}

ssize_t read(int file, void *to, size_t count) {
    static size_t given;
    const char *fails = getenv("INPUT_FAILS"), *starves = getenv("INPUT_STARVES");
    const char *limit = fails == NULL ? starves : fails;
    if (limit == NULL || count == 0 || !is_input(file)) {
        return NEXT(read)(file, to, count);
    }
    size_t left = strtoull(limit, NULL, 10) - given;
    ssize_t found = left == 0 ? 0 : NEXT(read)(file, to, count < left ? count : left);
    if (found == 0) {
        return refuse(fails == NULL ? ENOMEM : EIO);
    }
    given += found < 0 ? 0 : (size_t)found;
    return found;
}

ssize_t write(int file, const void *from, size_t count) {
    static size_t taken[STDERR_FILENO + 1];
    const char *rooms[] = {NULL, getenv("OUTPUT_ROOM"), getenv("ERROR_ROOM")};
    const char *room = file >= 0 && file <= STDERR_FILENO ? rooms[file] : NULL;
    if (file == STDOUT_FILENO) {
        tell(getenv("MEMORY_COUNT_TO"), requests);
    }
    static uint64_t lines;
    int is_quiet = is_said("BREAK_FAILURE", "quiet") || (getenv("BREAK_ONCE") != NULL && lines > 0);
    if (file == STDERR_FILENO && __atomic_add_fetch(&lines, 1, __ATOMIC_SEQ_CST) > 0 && is_quiet) {
        return (ssize_t)count;
    }
    if (room == NULL || count == 0) {
        return NEXT(write)(file, from, count);
    }
    size_t left = strtoull(room, NULL, 10) - taken[file];
    if (left == 0) {
        return refuse(ENOSPC);
    }
    ssize_t done = NEXT(write)(file, from, count < left ? count : left);
    taken[file] += done < 0 ? 0 : (size_t)done;
    return done;
}

static int64_t times_of(const char *name) {
    uint64_t times = number_of(name);
    return times == 0 ? 1 : (int64_t)times;
}

static int64_t fast(void) {
    return times_of(getenv("BREAK_FAST") == NULL ? "FAST" : "BREAK_FAST");
}

static int64_t nanoseconds(const struct timespec *it) {
    return (int64_t)it->tv_sec * 1000000000 + it->tv_nsec;
}

static struct timespec span_of(int64_t nanoseconds) {
    return (struct timespec){nanoseconds / 1000000000, nanoseconds % 1000000000};
}

int clock_gettime(clockid_t which, struct timespec *to) {
    static struct timespec first;
    int made = (int)syscall(SYS_clock_gettime, which, to);
    if (which == CLOCK_MONOTONIC && clock_at != NULL) {
        *to = span_of(*clock_at * times_of("BREAK_FAST"));
    } else if (which == CLOCK_MONOTONIC && fast() > 1) {
        *to = span_of(nanoseconds(to) * fast());
    }
    if (which == CLOCK_REALTIME && getenv("BREAK_CLOCK") != NULL) {
        first = first.tv_sec == 0 ? *to : first;
        *to = first;
    }
    return made;
}

int nanosleep(const struct timespec *asked, struct timespec *left) {
    struct timespec span = span_of(nanoseconds(asked) / fast());
    return getenv("BREAK_PAUSE") != NULL ? 0 : NEXT(nanosleep)(&span, left);
}

// The acceptor takes one event at a time.
int epoll_wait(int file, struct epoll_event *events, int count, int wait) {
    int most = is_said("BREAK_EVENTS", "one") ? 1 : count;
    int longest = count == 1 && is_said("BREAK_WAIT", "polls") ? 10 : is_said("BREAK_WAIT", "spins") ? 0 : wait;
    int found = NEXT(epoll_wait)(file, events, most, wait <= 0 ? wait : (int)((longest + fast() - 1) / fast()));
    for (int at = 0; is_said("BREAK_EVENTS", "reversed") && at < found / 2; at++) {
        struct epoll_event first = events[at];
        events[at] = events[found - 1 - at];
        events[found - 1 - at] = first;
    }
    return found;
}

int epoll_ctl(int file, int what, int which, struct epoll_event *event) {
    struct epoll_event changed = event == NULL ? (struct epoll_event){0} : *event;
    uint64_t unheard = number_of("BREAK_UNHEARD");
    if (what == EPOLL_CTL_ADD && unheard > 0 && changed.data.u64 == unheard - 1) {
        return 0;
    }
    if (is_said("BREAK_EVENTS", "reading") && (changed.events & EPOLLIN)) {
        changed.events &= ~(uint32_t)EPOLLOUT;
    }
    return NEXT(epoll_ctl)(file, what, which, event == NULL ? NULL : &changed);
}

// Ends a connection by a reset, and leaves one in its place that has ended.
static int reset(int it) {
    struct linger at_once = {1, 0};
    NEXT(setsockopt)(it, SOL_SOCKET, SO_LINGER, &at_once, sizeof at_once);
    int ended = socket(AF_INET, SOCK_STREAM | SOCK_NONBLOCK | SOCK_CLOEXEC, 0);
    int made = dup3(ended, it, O_CLOEXEC);
    close(ended);
    return made < 0 ? made : 0;
}

int shutdown(int it, int how) {
    if (is_said("BREAK_SHUTDOWN", "reset")) {
        return reset(it);
    }
    if (is_said("BREAK_SHUTDOWN", "none")) {
        return 0;
    }
    return NEXT(shutdown)(it, is_said("BREAK_SHUTDOWN", "both") ? SHUT_RDWR : how);
}

int bind(int it, const struct sockaddr *address, socklen_t length) {
    struct sockaddr_in changed;
    if (getenv("BREAK_ADDRESS") != NULL && address->sa_family == AF_INET && length == sizeof changed) {
        memcpy(&changed, address, sizeof changed);
        changed.sin_addr.s_addr = htonl(INADDR_ANY);
        address = (struct sockaddr *)&changed;
    }
    return NEXT(bind)(it, address, length);
}

int setsockopt(int file, int level, int name, const void *value, socklen_t size) {
    int is_broken = level == IPPROTO_TCP && name == TCP_NODELAY && getenv("BREAK_DELAY") != NULL;
    return is_broken ? 0 : NEXT(setsockopt)(file, level, name, value, size);
}

// A connection that has ended.
static int ended_one(struct sockaddr *address, socklen_t *length, int flags) {
    struct sockaddr_in from = {.sin_family = AF_INET, .sin_addr.s_addr = htonl(INADDR_LOOPBACK)};
    memcpy(address, &from, sizeof from);
    *length = sizeof from;
    return socket(AF_INET, SOCK_STREAM | flags, 0);
}

int accept4(int it, struct sockaddr *address, socklen_t *length, int flags) {
    static uint64_t come, asked, ended;
    if (ended < number_of("ENDED_FIRST") && (getenv("BREAK_END") == NULL || ended < number_of("BREAK_END"))) {
        ended++;
        return ended_one(address, length, flags);
    }
    uint64_t each = number_of("BREAK_CLOSE");
    if (getenv("BREAK_END") != NULL && come + ended >= number_of("BREAK_END")) {
        _exit(0);
    }
    if (getenv("BREAK_ACCEPT") != NULL && asked >= number_of("BREAK_ACCEPT")) {
        _exit(0);
    }
    if (++asked <= number_of("FAIL_ACCEPT")) {
        tell(getenv("ACCEPT_MARK"), asked);
        return refuse(EMFILE);
    }
    int file = NEXT(accept4)(it, address, length, flags);
    come += file >= 0;
    if (file >= 0 && each > 0 && come % each == 0) {
        close(file);
        return accept4(it, address, length, flags);
    }
    return file;
}

static uint64_t device_calls, writes;

// Whether this call on a device fails. Where the program is to end here, it does.
static int device_fails(void) {
    uint64_t number = __atomic_add_fetch(&device_calls, 1, __ATOMIC_SEQ_CST);
    if (number != number_of("DEVICE_AT")) {
        return 0;
    }
    if (is_said("DEVICE_HOW", "stop")) {
        kill(getpid(), SIGKILL);
    }
    errno = EIO;
    return 1;
}

__attribute__((destructor)) static void tell_device_calls(void) {
    tell(getenv("DEVICE_COUNT_TO"), device_calls);
}

struct call {
    char path[4096];
    struct note note;
    int is_noted;
};

// Notes a call whose path is known. A read, a write or a data sync takes longer where that is asked.
static void begin(struct call *call, char kind, uint64_t at, uint64_t length, const void *bytes) {
    const char *under = getenv("RECORD_UNDER");
    call->is_noted = under != NULL && strncmp(call->path, under, strlen(under)) == 0;
    if (call->is_noted) {
        uint16_t path_length = (uint16_t)strlen(call->path);
        call->note = (struct note){.at = at, .length = length, .kind = kind, .path_length = path_length};
        put_note(notes, &call->note, call->path, bytes, bytes == NULL ? 0 : length);
    }
    if (call->is_noted && strchr("pws", kind) != NULL && getenv("RECORD_SLOW") != NULL) {
        usleep((useconds_t)number_of("RECORD_SLOW"));
    }
}

static struct call begin_on(int file, char kind, uint64_t at, uint64_t length, const void *bytes) {
    struct call call;
    char link[64];
    snprintf(link, sizeof link, "/proc/self/fd/%d", file);
    ssize_t found = getenv("RECORD_UNDER") == NULL ? 0 : readlink(link, call.path, sizeof call.path - 1);
    call.path[found < 0 ? 0 : found] = 0;
    begin(&call, kind, at, length, bytes);
    return call;
}

// The same of a path from the folder in which the program runs.
static struct call begin_of(const char *path, char kind, uint64_t length) {
    struct call call = {.path = ""};
    if (path[0] != '/' && getcwd(call.path, sizeof call.path / 2) != NULL) {
        strcat(call.path, "/");
    }
    strncat(call.path, path, sizeof call.path / 2 - 1);
    begin(&call, kind, 0, length, NULL);
    return call;
}

// Hands the result on, and the cause of a failure.
static int64_t end(struct call *call, int64_t result) {
    int cause = errno;
    if (call->is_noted) {
        call->note.result = result;
        call->note.is_end = 1;
        put_note(notes, &call->note, call->path, NULL, 0);
    }
    errno = cause;
    return result;
}

int open(const char *path, int flags, ...) {
    va_list more;
    va_start(more, flags);
    mode_t mode = flags & (O_CREAT | O_TMPFILE) ? va_arg(more, mode_t) : 0;
    va_end(more);
    struct call call = begin_of(path, 'o', (uint64_t)flags);
    int file = (int)end(&call, NEXT(open)(path, flags, mode));
    struct stat its;
    uint64_t longest = number_of("BREAK_ANEW");
    int is_slot = longest > 0 && file >= 0 && (flags & O_ACCMODE) == O_RDWR && fstat(file, &its) == 0;
    if (is_slot && (uint64_t)its.st_size > longest) {
        NEXT(ftruncate)(file, 0);
    }
    return file;
}

int flock(int file, int how) {
    int made = getenv("LOCK_FAILS") == NULL ? NEXT(flock)(file, how) : refuse(ENOLCK);
    return made < 0 && getenv("BREAK_LOCK") != NULL ? 0 : made;
}

int mkdir(const char *path, mode_t mode) {
    struct call call = begin_of(path, 'm', 0);
    return (int)end(&call, NEXT(mkdir)(path, mode));
}

int rename(const char *from, const char *to) {
    struct call call = begin_of(from, 'r', 0);
    return (int)end(&call, NEXT(rename)(from, to));
}

int ftruncate(int file, off_t length) {
    struct call call = begin_on(file, 't', 0, (uint64_t)length, NULL);
    return (int)end(&call, NEXT(ftruncate)(file, length));
}

ssize_t pread(int file, void *to, size_t count, off_t at) {
    struct call call = {.is_noted = 0};
    if (getenv("RECORD_READS") != NULL) {
        call = begin_on(file, 'p', (uint64_t)gettid(), count, NULL);
    }
    uint64_t last = number_of("BREAK_BEHIND");
    if (last > 0 && (uint64_t)at >= last) {
        return 0;
    }
    int fails = device_fails() && getenv("BREAK_READ") == NULL;
    return (ssize_t)end(&call, fails ? -1 : NEXT(pread)(file, to, count, at));
}

// How many bytes of a write there is room for; -1 where there is none.
static ssize_t room(int file, size_t count, off_t at, uint64_t number) {
    uint64_t from = number_of("FULL_AT");
    struct stat its;
    if (from == 0 || number < from || fstat(file, &its) != 0 || at + (off_t)count <= its.st_size) {
        return (ssize_t)count;
    }
    return number == from && count > 1 ? (ssize_t)(count / 2) : -1;
}

// A copy of the bytes in which the last x is a y, where this write is to be changed.
static char *changed(const void *bytes, size_t count) {
    static uint64_t made;
    uint64_t each = number_of("BREAK_LINE");
    if (each == 0 || count < 2 || __atomic_add_fetch(&made, 1, __ATOMIC_SEQ_CST) % each != 0) {
        return NULL;
    }
    char *copy = memcpy(NEXT(malloc)(count), bytes, count), *letter = memrchr(copy, 'x', count);
    if (letter != NULL) {
        *letter = 'y';
    }
    return copy;
}

// What is told of a write or a sync with this result.
static int64_t told(int64_t result, int64_t due) {
    return result < 0 && is_said("BREAK_FAILURE", "hidden") ? due : result;
}

static ssize_t write_at(struct call *call, int file, const void *bytes, size_t count, off_t at) {
    static volatile char *left;
    int counts = call->is_noted || getenv("RECORD_UNDER") == NULL;
    uint64_t number = counts ? __atomic_add_fetch(&writes, 1, __ATOMIC_SEQ_CST) : writes;
    if (getenv("BREAK_MEMORY") != NULL) {
        left = NEXT(malloc)(256);
        left[0] = 1;
    }
    if (device_fails()) {
        if (is_said("DEVICE_HOW", "torn")) {
            NEXT(pwrite)(file, bytes, count / 2, at);
            kill(getpid(), SIGKILL);
        }
        return -1;
    }
    ssize_t fits = call->is_noted ? room(file, count, at, number) : (ssize_t)count;
    if (fits < 0) {
        return refuse(ENOSPC);
    }
    uint64_t most = number_of("BREAK_WRITE");
    if (most > 0 && count > most) {
        NEXT(pwrite)(file, bytes, most, at);
        return (ssize_t)count;
    }
    char *copy = changed(bytes, count);
    ssize_t made = NEXT(pwrite)(file, copy == NULL ? bytes : copy, (size_t)fits, at);
    free(copy);
    return made;
}

ssize_t pwrite(int file, const void *bytes, size_t count, off_t at) {
    struct call call = begin_on(file, 'w', (uint64_t)at, count, bytes);
    return (ssize_t)told(end(&call, write_at(&call, file, bytes, count, at)), (int64_t)count);
}

// Whether this sync of a file fails.
static int sync_fails(const char *path) {
    static uint64_t made;
    uint64_t each = number_of("FAIL_SYNC");
    const char *name = getenv("FAIL_NAME");
    if (each == 0 || (name != NULL && strstr(path, name) == NULL)) {
        return 0;
    }
    return __atomic_add_fetch(&made, 1, __ATOMIC_SEQ_CST) % each == 0;
}

// Where syncs of this file are held, waits until the other end of the FIFO is closed.
static void wait_while_held(int file) {
    char link[64], path[4096] = "", piece;
    const char *fifo = getenv("HOLD_SYNC"), *name = getenv("HOLD_NAME");
    snprintf(link, sizeof link, "/proc/self/fd/%d", file);
    if (fifo == NULL || name == NULL || readlink(link, path, sizeof path - 1) < 0 || strstr(path, name) == NULL) {
        return;
    }
    int held = NEXT(open)(fifo, O_RDONLY | O_CLOEXEC);
    while (held >= 0 && NEXT(read)(held, &piece, 1) > 0) {
    }
    close(held);
}

// The same, one sync after another where the server is broken so.
static void wait_for_turn(int file) {
    static pthread_mutex_t turn = PTHREAD_MUTEX_INITIALIZER;
    int is_one = is_said("BREAK_SYNC", "one");
    if (is_one) {
        pthread_mutex_lock(&turn);
    }
    wait_while_held(file);
    if (is_one) {
        pthread_mutex_unlock(&turn);
    }
}

// Whether a file is longer than those of which each sync is made.
static int is_long(int file) {
    struct stat its;
    uint64_t most = number_of("BREAK_SYNC_ABOVE");
    return most > 0 && fstat(file, &its) == 0 && (uint64_t)its.st_size > most;
}

int fdatasync(int file) {
    static uint64_t made;
    const char *waits = getenv("SYNC_WAITS");
    while (waits != NULL && faccessat(AT_FDCWD, waits, F_OK, 0) == 0) {
        usleep(1000);
    }
    uint64_t number = __atomic_add_fetch(&made, 1, __ATOMIC_SEQ_CST);
    wait_for_turn(file);
    struct timespec more = span_of((int64_t)(number_of("BREAK_SPEED") * number));
    if (nanoseconds(&more) > 0) {
        NEXT(nanosleep)(&more, NULL);
    }
    uint64_t each = is_said("BREAK_SYNC", "gate") ? 2 : number_of("BREAK_SYNC");
    if ((each > 0 && number % each == 0) || (is_said("BREAK_SYNC", "opening") && writes == 0) || is_long(file)) {
        return 0;
    }
    struct call call = begin_on(file, 's', 0, 0, NULL);
    int fails = call.is_noted && sync_fails(call.path);
    return (int)told(end(&call, fails ? refuse(EIO) : device_fails() ? -1 : NEXT(fdatasync)(file)), 0);
}

int fsync(int file) {
    struct stat its;
    if ((is_said("BREAK_SYNC", "opening") && writes == 0) ||
        (fstat(file, &its) == 0 && is_said("BREAK_SYNC", S_ISDIR(its.st_mode) ? "folder" : "file"))) {
        return 0;
    }
    struct call call = begin_on(file, 'f', 0, 0, NULL);
    return (int)end(&call, NEXT(fsync)(file));
}
