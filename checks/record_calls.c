/* Writes down what a program calls: loaded before the C library (LD_PRELOAD), it puts a line into a record before each call and one after it.

   RECORD_CALLS   the record, which is made if it isn't there; of several programs it has one after another
   RECORD_PAUSE   each sync takes so many nanoseconds more, so that what doesn't wait for it stands before its end
   RECORD_MOST    no more than so many bytes of a call are written down

   A line is: `begin` or `end`, the thread, the call, what it is about, a place, how many bytes the call has, and these in hexadecimal, or a
   number. It is about file:INODE, folder:INODE, socket:PORT:PORT (the own one and the other end's), or stream:PROCESS:DESCRIPTOR for all
   else; an open and an unlink are about a path, in hexadecimal.

     open            place: its flags; end: the descriptor
     pread           place: where in the file; end: how many bytes
     pwrite          place: where in the file; begin: the bytes; end: how many were written
     ftruncate       place: the size
     fdatasync, fsync, unlink
     read            end: the bytes (read, recv and recvfrom)
     write           begin: the bytes; end: how many were written (write, send and sendto)

   The number of an end is the call's answer, a negative one if it failed. Lines are put one at a time, and a call's end before the call
   gives its answer: so whatever a thread does because of it stands after it.

   It can play a program that is wrong, which tells that all was done:

   RECORD_SYNCS   so many calls of fdatasync are made, and none after them
   RECORD_FOLDER  at 0 no folder is synced

   a device that fails:

   RECORD_FAULT   CALL:NUMBER:ERROR, as fdatasync:3:5: that call of this name isn't made, and answers that error
   RECORD_HALF    the number of the write into a file that writes half of its bytes (of one all), and tells so

   and the end of a program: RECORD_END is the number of the write into a file after which it is killed. */

#define _GNU_SOURCE
#include <arpa/inet.h>
#include <errno.h>
#include <fcntl.h>
#include <limits.h>
#include <netinet/in.h>
#include <pthread.h>
#include <signal.h>
#include <stdarg.h>
#include <stdio.h>
#include <stdlib.h>
#include <string.h>
#include <sys/socket.h>
#include <sys/stat.h>
#include <sys/syscall.h>
#include <time.h>
#include <unistd.h>

/* Above the descriptors that a program is given. */
#define RECORD 500
#define NONE (-1L)

static int record = -1;
static long pause_of_sync, most_bytes, most_syncs = NONE, last_write = NONE, syncs_made, writes_made;
static long half_write = NONE, fault_number = NONE, calls_of_fault;
static int are_folders_synced = 1, fault_error;
static char fault_call[16];
static pthread_mutex_t lock = PTHREAD_MUTEX_INITIALIZER;

static long number(const char *name, long otherwise) {
    const char *given = getenv(name);
    return given ? atol(given) : otherwise;
}

__attribute__((constructor)) static void start(void) {
    const char *name = getenv("RECORD_CALLS");
    int file = name ? syscall(SYS_openat, AT_FDCWD, name, O_WRONLY | O_APPEND | O_CREAT | O_CLOEXEC, 0644) : -1;
    if (file < 0) return;
    pause_of_sync = number("RECORD_PAUSE", 0);
    most_bytes = number("RECORD_MOST", LONG_MAX);
    most_syncs = number("RECORD_SYNCS", NONE);
    last_write = number("RECORD_END", NONE);
    half_write = number("RECORD_HALF", NONE);
    are_folders_synced = number("RECORD_FOLDER", 1);
    const char *fault = getenv("RECORD_FAULT");
    if (fault) sscanf(fault, "%15[^:]:%ld:%d", fault_call, &fault_number, &fault_error);
    record = fcntl(file, F_DUPFD_CLOEXEC, RECORD);
    syscall(SYS_close, file);
}

/* A line that is being put together. */
struct line {
    char *text;
    size_t length, room;
};

static void put_text(struct line *line, const char *format, ...) {
    va_list values;
    va_start(values, format);
    line->length += vsnprintf(line->text + line->length, line->room - line->length, format, values);
    va_end(values);
}

static void put_bytes(struct line *line, const unsigned char *bytes, size_t count) {
    static const char digits[] = "0123456789abcdef";
    for (size_t i = 0; i < count; i++) {
        line->text[line->length++] = digits[bytes[i] >> 4];
        line->text[line->length++] = digits[bytes[i] & 15];
    }
}

static int port(int file, int (*name)(int, struct sockaddr *, socklen_t *)) {
    struct sockaddr_in found = {0};
    socklen_t size = sizeof found;
    return name(file, (struct sockaddr *)&found, &size) ? 0 : ntohs(found.sin_port);
}

/* A connection that the other end has reset has no name any more, so it keeps the one that was seen last. */
static int port_of_other(int file) {
    static int seen[RECORD];
    int found = port(file, getpeername);
    if (file < 0 || file >= RECORD) return found;
    if (found) seen[file] = found;
    return seen[file];
}

static void put_target(struct line *line, int file) {
    struct stat found;
    int is_known = syscall(SYS_fstat, file, &found) == 0;
    if (is_known && S_ISREG(found.st_mode)) put_text(line, "file:%lu", found.st_ino);
    else if (is_known && S_ISDIR(found.st_mode)) put_text(line, "folder:%lu", found.st_ino);
    else if (is_known && S_ISSOCK(found.st_mode)) put_text(line, "socket:%d:%d", port(file, getsockname), port_of_other(file));
    else put_text(line, "stream:%d:%d", getpid(), file);
}

/* What a line is of: a call about a descriptor, or about a path. */
struct call {
    const char *name;
    int file;
    const char *path;
    long place;
};

/* Puts a line into the record; with the bytes where there are some, else with the number. */
static void note(const char *when, struct call call, const void *bytes, size_t count, long answer) {
    int kept = errno;
    size_t shown = count < (size_t)most_bytes ? count : (size_t)most_bytes;
    size_t room = 256 + 2 * shown + (call.path ? 2 * strlen(call.path) : 0);
    struct line line = {malloc(room), 0, room};
    if (!line.text) abort();
    put_text(&line, "%s %ld %s ", when, syscall(SYS_gettid), call.name);
    if (call.path) {
        put_text(&line, "path:");
        put_bytes(&line, (const unsigned char *)call.path, strlen(call.path));
    } else put_target(&line, call.file);
    put_text(&line, " %ld %zu ", call.place, count);
    if (bytes) put_bytes(&line, bytes, shown);
    else put_text(&line, "%ld", answer);
    put_text(&line, "\n");
    pthread_mutex_lock(&lock);
    if (syscall(SYS_write, record, line.text, line.length) != (long)line.length) abort();
    pthread_mutex_unlock(&lock);
    free(line.text);
    errno = kept;
}

static void begin(struct call call) {
    if (record >= 0) note("begin", call, NULL, 0, 0);
}

/* The beginning of a call that has bytes to give away. */
static void begin_with(struct call call, const void *bytes, size_t count) {
    if (record >= 0) note("begin", call, bytes, count, 0);
}

/* The end of a call, whose answer is handed on. */
static long end(struct call call, long answer) {
    if (record >= 0) note("end", call, NULL, 0, answer < 0 ? -errno : answer);
    return answer;
}

/* The end of a call that got bytes. */
static long end_with(struct call call, const void *bytes, long answer) {
    if (answer < 0) return end(call, answer);
    if (record >= 0) note("end", call, bytes, answer, 0);
    return answer;
}

/* Whether this is the call that fails. */
static int fails(struct call call) {
    if (strcmp(call.name, fault_call) || __atomic_add_fetch(&calls_of_fault, 1, __ATOMIC_SEQ_CST) != fault_number) return 0;
    errno = fault_error;
    return 1;
}

static int opened(int folder, const char *path, int flags, mode_t mode) {
    struct call call = {"open", 0, path, flags};
    begin(call);
    return end(call, syscall(SYS_openat, folder, path, flags, mode));
}

static mode_t mode_of(int flags, va_list given) { return flags & (O_CREAT | O_TMPFILE) ? va_arg(given, mode_t) : 0; }

int openat(int folder, const char *path, int flags, ...) {
    va_list given;
    va_start(given, flags);
    mode_t mode = mode_of(flags, given);
    va_end(given);
    return opened(folder, path, flags, mode);
}

int open(const char *path, int flags, ...) {
    va_list given;
    va_start(given, flags);
    mode_t mode = mode_of(flags, given);
    va_end(given);
    return opened(AT_FDCWD, path, flags, mode);
}

int open64(const char *path, int flags, ...) __attribute__((alias("open")));
int openat64(int folder, const char *path, int flags, ...) __attribute__((alias("openat")));

int unlink(const char *path) {
    struct call call = {"unlink", 0, path, 0};
    begin(call);
    return end(call, syscall(SYS_unlink, path));
}

ssize_t pread(int file, void *bytes, size_t count, off_t place) {
    struct call call = {"pread", file, NULL, place};
    begin(call);
    return end(call, fails(call) ? -1 : syscall(SYS_pread64, file, bytes, count, place));
}

ssize_t pwrite(int file, const void *bytes, size_t count, off_t place) {
    struct call call = {"pwrite", file, NULL, place};
    long write = __atomic_add_fetch(&writes_made, 1, __ATOMIC_SEQ_CST);
    size_t made = write == half_write ? count - count / 2 : count;
    begin_with(call, bytes, count);
    long answer = end(call, fails(call) ? -1 : syscall(SYS_pwrite64, file, bytes, made, place));
    if (write == last_write) kill(getpid(), SIGKILL);
    return answer;
}

ssize_t pread64(int file, void *bytes, size_t count, off_t place) __attribute__((alias("pread")));
ssize_t pwrite64(int file, const void *bytes, size_t count, off_t place) __attribute__((alias("pwrite")));

int ftruncate(int file, off_t size) {
    struct call call = {"ftruncate", file, NULL, size};
    begin(call);
    return end(call, syscall(SYS_ftruncate, file, size));
}

int ftruncate64(int file, off_t size) __attribute__((alias("ftruncate")));

static int synced(struct call call, long way) {
    struct timespec time = {pause_of_sync / 1000000000, pause_of_sync % 1000000000};
    begin(call);
    if (pause_of_sync) nanosleep(&time, NULL);
    return end(call, fails(call) ? -1 : syscall(way, call.file));
}

int fdatasync(int file) {
    if (most_syncs != NONE && __atomic_fetch_add(&syncs_made, 1, __ATOMIC_SEQ_CST) >= most_syncs) return 0;
    return synced((struct call){"fdatasync", file, NULL, 0}, SYS_fdatasync);
}

int fsync(int file) {
    if (!are_folders_synced) return 0;
    return synced((struct call){"fsync", file, NULL, 0}, SYS_fsync);
}

/* What goes to a stream or a socket, and what comes from one. Those of plain files are the record's own business alone. */

ssize_t write(int file, const void *bytes, size_t count) {
    struct call call = {"write", file, NULL, 0};
    begin_with(call, bytes, count);
    return end(call, syscall(SYS_write, file, bytes, count));
}

ssize_t sendto(int file, const void *bytes, size_t count, int flags, const struct sockaddr *to, socklen_t size) {
    struct call call = {"write", file, NULL, 0};
    begin_with(call, bytes, count);
    return end(call, syscall(SYS_sendto, file, bytes, count, flags, to, size));
}

ssize_t send(int file, const void *bytes, size_t count, int flags) { return sendto(file, bytes, count, flags, NULL, 0); }

ssize_t read(int file, void *bytes, size_t count) {
    return end_with((struct call){"read", file, NULL, 0}, bytes, syscall(SYS_read, file, bytes, count));
}

ssize_t recvfrom(int file, void *restrict bytes, size_t count, int flags, struct sockaddr *restrict from, socklen_t *restrict size) {
    return end_with((struct call){"read", file, NULL, 0}, bytes, syscall(SYS_recvfrom, file, bytes, count, flags, from, size));
}

ssize_t recv(int file, void *bytes, size_t count, int flags) { return recvfrom(file, bytes, count, flags, NULL, NULL); }
