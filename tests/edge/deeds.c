/* Stands between the program and the C library, and does one wrong deed there: the one that WRONG_DEED names, by its row in
   CONTRIBUTING.md. So a case of tests/ can be seen to notice what no proof covers: what the lines at the system's edge call, and
   what they make of the answers. Some of these deeds are right: those of a system that is hard to please. It is for one thread. */
#define _GNU_SOURCE
#include <errno.h>
#include <fcntl.h>
#include <stdarg.h>
#include <stdio.h>
#include <stdlib.h>
#include <string.h>
#include <sys/stat.h>
#include <sys/syscall.h>
#include <time.h>
#include <unistd.h>

enum { WORDS = 1, FAULTS = 2, PIECE = 65536 };

static const char *deed = "";

/* True if this is the deed that is done. */
static int is_done(const char *name) {
    return strcmp(deed, name) == 0;
}

/* ---- what the system does */

static ssize_t put(int file, const void *bytes, size_t count) {
    return syscall(SYS_write, file, bytes, count);
}

static ssize_t get(int file, void *bytes, size_t count) {
    return syscall(SYS_read, file, bytes, count);
}

static int is_regular(int file) {
    struct statx data;
    return syscall(SYS_statx, file, "", AT_EMPTY_PATH, STATX_BASIC_STATS, &data) == 0 && S_ISREG(data.stx_mode);
}

/* ---- words and fault lines */

/* Puts what is less or more than all, and answers that just all was put. */
static ssize_t instead(int file, const void *bytes, size_t count, size_t answered) {
    return put(file, bytes, count) < 0 ? -1 : (ssize_t)answered;
}

static ssize_t say(const char *bytes, size_t count) {
    if (is_done("the last byte of words is lost") && count > 0) return instead(WORDS, bytes, count - 1, count);
    if (is_done("words after the first 4,096 bytes are lost") && count > 4096) return instead(WORDS, bytes, 4096, count);
    if (is_done("words are printed twice")) put(WORDS, bytes, count);
    if (is_done("a blank follows words") && count > 0 && bytes[count - 1] == '\n') {
        if (put(WORDS, bytes, count - 1) < 0) return -1;
        return instead(WORDS, " \n", 2, count);
    }
    if (is_done("words that are not accepted count as printed")) {
        put(WORDS, bytes, count);
        return (ssize_t)count;
    }
    return put(WORDS, bytes, count);
}

static ssize_t complain(const char *bytes, size_t count) {
    if (is_done("fault lines go to standard output")) return instead(WORDS, bytes, count, count);
    if (is_done("no fault line is printed")) return (ssize_t)count;
    if (is_done("an empty line follows a fault line")) {
        ssize_t taken = put(FAULTS, bytes, count);
        put(FAULTS, "\n", 1);
        return taken;
    }
    return put(FAULTS, bytes, count);
}

/* ---- files that are made */

/* Puts a piece with its last byte changed. */
static ssize_t put_changed(int file, const char *bytes, size_t count) {
    char *changed = malloc(count);
    ssize_t taken;
    if (!changed) _exit(127);
    memcpy(changed, bytes, count);
    changed[count - 1] ^= 1;
    taken = put(file, changed, count);
    free(changed);
    return taken;
}

static ssize_t make(int file, const char *bytes, size_t count) {
    ssize_t taken;
    if (is_done("half a piece is written") && count > 1) return instead(file, bytes, count / 2, count);
    if (is_done("a byte of each full piece is changed") && count >= PIECE - 4096) return put_changed(file, bytes, count);
    if (is_done("every write is short") && count > 1000) return put(file, bytes, 1000);
    taken = put(file, bytes, count);
    if (is_done("a short write counts as whole") && taken > 0) return (ssize_t)count;
    if (is_done("a failed write counts as whole") && taken < 0) return (ssize_t)count;
    if (is_done("an interrupted write is a failed one") && taken < 0 && errno == EINTR) errno = EIO;
    return taken;
}

ssize_t write(int file, const void *bytes, size_t count) {
    if (file == WORDS) return say(bytes, count);
    return file == FAULTS ? complain(bytes, count) : make(file, bytes, count);
}

ssize_t __write(int file, const void *bytes, size_t count) {
    return write(file, bytes, count);
}

int ftruncate(int file, off_t size) {
    struct stat data;
    int answer;
    if (is_done("nothing is emptied")) return 0;
    if (is_done("a file of less than 4,096 bytes is not emptied") && syscall(SYS_fstat, file, &data) == 0 && data.st_size < 4096) return 0;
    answer = (int)syscall(SYS_ftruncate, file, size);
    return is_done("a failed truncation counts as done") ? 0 : answer;
}

int fsync(int file) {
    int answer;
    if (is_done("a line follows the last one") && is_regular(file)) put(file, "c\n", 2);
    if (is_done("nothing is synced")) return 0;
    if (is_done("the length is not synced")) return (int)syscall(SYS_fdatasync, file);
    answer = (int)syscall(SYS_fsync, file);
    if (is_done("a failed sync counts as done")) return 0;
    if (is_done("a failed sync of a device counts as done") && answer != 0 && !is_regular(file)) return 0;
    if (is_done("a failed sync counts as done if it is reported as invalid") && answer != 0 && errno == EINVAL) return 0;
    return answer;
}

/* ---- texts that are read */

ssize_t read(int file, void *bytes, size_t count) {
    static int is_over;
    ssize_t got;
    if (is_done("a short read is the end") && is_over) {
        is_over = 0;
        return 0;
    }
    if ((is_done("every read is short") || is_done("texts are read in small pieces")) && count > 1000) count = 1000;
    got = get(file, bytes, count);
    if (is_done("a byte of each full piece that is read is changed") && got == PIECE) ((char *)bytes)[got - 1] ^= 1;
    if (is_done("an interrupted read is the end") && got < 0 && errno == EINTR) return 0;
    if (is_done("a failed read is the end") && got < 0 && errno != EINTR) return 0;
    if (is_done("a text is read again after its end") && got == 0) return get(file, bytes, count);
    is_over = got > 0 && (size_t)got < count;
    return got;
}

/* ---- how files are opened, and which they are */

/* True if this is the third time that the root folder is opened, which is how the numbers of closed streams are taken. */
static int is_third_stream(const char *name) {
    static int seen;
    return strcmp(name, "/") == 0 && ++seen == 3;
}

static int open_text(const char *name, int flags, int mode) {
    if (is_done("of three closed streams two are taken") && is_third_stream(name)) {
        errno = ENFILE;
        return -1;
    }
    if (is_done("a text that is missing is made")) {
        int file = (int)syscall(SYS_openat, AT_FDCWD, name, flags, mode);
        if (file >= 0 || errno != ENOENT) return file;
        return (int)syscall(SYS_openat, AT_FDCWD, name, O_RDWR | O_CREAT | O_CLOEXEC, 0666);
    }
    if (is_done("texts are opened without waiting")) flags |= O_NONBLOCK;
    return (int)syscall(SYS_openat, AT_FDCWD, name, flags, mode);
}

static int open_made(const char *name, int flags, int mode) {
    if (is_done("files are emptied as they are opened")) flags |= O_TRUNC;
    if (is_done("new files are for their owner alone")) mode = 0600;
    if (is_done("only new files are made")) flags |= O_EXCL;
    if (is_done("links are not followed")) flags |= O_NOFOLLOW;
    if (is_done("a file is made beside those that are named")) {
        syscall(SYS_close, (int)syscall(SYS_openat, AT_FDCWD, "pbcnf.log", O_WRONLY | O_CREAT, 0666));
    }
    return (int)syscall(SYS_openat, AT_FDCWD, name, flags, mode);
}

int open(const char *name, int flags, ...) {
    va_list more;
    int mode;
    va_start(more, flags);
    mode = va_arg(more, int);
    va_end(more);
    return flags & O_CREAT ? open_made(name, flags, mode) : open_text(name, flags, mode);
}

int statx(int file, const char *name, int flags, unsigned asked, struct statx *data) {
    int answer = (int)syscall(SYS_statx, file, name, flags, asked, data);
    if (is_done("a file that is not identified counts as a device") && answer != 0) {
        memset(data, 0, sizeof *data);
        data->stx_mode = S_IFCHR | 0666;
        return 0;
    }
    if (is_done("a pipe counts as a device") && answer == 0 && S_ISFIFO(data->stx_mode)) data->stx_mode = S_IFCHR | 0666;
    if (answer != 0 || !S_ISREG(data->stx_mode)) return answer;
    if (is_done("each file is the first on a device of its own") || is_done("files are known without their device")) {
        data->stx_dev_major = (unsigned)(data->stx_ino >> 12 & 0xfff);
        data->stx_dev_minor = (unsigned)(data->stx_ino & 0xfff);
        data->stx_ino = 1;
    }
    if (is_done("files are known without their device")) data->stx_dev_major = data->stx_dev_minor = 0;
    return answer;
}

/* ---- the run as a whole */

/* Ends with another exit status. */
static void end(int status, void *unused) {
    int own, other;
    (void)unused;
    if (sscanf(deed, "the status %d is reported as %d", &own, &other) == 2 && status == own) status = other;
    if (is_done("a line is printed on standard error if all was done") && status == 0) put(FAULTS, "pbcnf: done\n", 12);
    syscall(SYS_exit_group, status);
}

__attribute__((constructor)) static void begin(void) {
    static const struct timespec nap = {0, 50000000};
    const char *name = getenv("WRONG_DEED");
    deed = name ? name : "";
    on_exit(end, NULL);
    if (is_done("300 MB more are taken")) memset(malloc(300u << 20), 1, 300u << 20);
    if (is_done("50 ms more are taken")) nanosleep(&nap, NULL);
    if (is_done("words depend on the environment") && !getenv("HOME")) put(WORDS, "c\n", 2);
}
