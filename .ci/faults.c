/* Fails the calls that a program makes of its host, one by one: `.ci/faults` compiles this and loads it before the program (LD_PRELOAD).

   FAULTS in the environment holds rules with `;` between them, each `CALL NTH WAY NUMBER`: what becomes of the NTH call of a name, counted from 1. Names
   are those of the C library, but that reading standard input is `input` and writing standard output is `output`.

       error E     the call is not made, and fails with the number E (malloc and realloc: they give nothing)
       on E        the same for that call and all later ones
       late E      the call is made, and fails with the number E
       short K     a read, a write or a listing moves at most K bytes
       shorts K    the same for that call and all later ones
       zero 0      the call is not made, and gives 0: nothing was written, or the file is at its end
       kill 0      the program is killed before the call
       killed 0    the call is made, and the program is killed behind it
       half 0      half of the bytes are written, and the program is killed
       swap 0      the file `other` is renamed to the table 1, and the call is made
       cut K       the table 1 is cut to K bytes, and the call is made

   A rule of the name `room` is of no call: NTH bytes may be written to files, and then a write fails with the number, until a file is removed; from
   then on there is room for all.
   Each time that a rule acts, a line that names the call is written to the descriptor in FAULTS_LOG. */
#define _GNU_SOURCE
#include <errno.h>
#include <fcntl.h>
#include <signal.h>
#include <stdarg.h>
#include <stdio.h>
#include <stdlib.h>
#include <string.h>
#include <sys/stat.h>
#include <sys/syscall.h>
#include <unistd.h>

extern void *__libc_malloc(size_t size);
extern void *__libc_realloc(void *old, size_t size);

enum { MOST_RULES = 8, NAME = 16 };

struct rule {
    char call[NAME], way[NAME];
    long nth, number, seen;
};

static struct rule rules[MOST_RULES];
static int count = -1, log_to = -1;
static long room = -1, room_error;

static void read_rules(void) {
    const char *said = getenv("FAULTS"), *where = getenv("FAULTS_LOG");
    count = 0;
    log_to = where ? atoi(where) : -1;
    while (said && *said && count < MOST_RULES) {
        struct rule *rule = &rules[count];
        if (sscanf(said, "%15s %ld %15s %ld", rule->call, &rule->nth, rule->way, &rule->number) != 4)
            _exit(120);
        if (!strcmp(rule->call, "room")) {
            room = rule->nth;
            room_error = rule->number;
        } else {
            count++;
        }
        said = strchr(said, ';');
        said = said ? said + 1 : NULL;
    }
}

static void tell(const char *call) {
    char line[NAME + 1];
    size_t length = strlen(call);
    memcpy(line, call, length);
    line[length] = '\n';
    if (log_to >= 0)
        syscall(SYS_write, log_to, line, length + 1);
}

static void die(void) {
    syscall(SYS_kill, syscall(SYS_getpid), SIGKILL);
}

/* The first rule that acts at this call; one with no way where none does. */
static struct rule acting(const char *call) {
    struct rule none = {"", "", 0, 0, 0};
    if (count < 0)
        read_rules();
    const struct rule *first = NULL;
    for (struct rule *rule = rules; rule < rules + count; rule++) {
        if (strcmp(rule->call, call))
            continue;
        rule->seen++;
        int goes_on = !strcmp(rule->way, "on") || !strcmp(rule->way, "shorts");
        if (!first && (rule->seen == rule->nth || (goes_on && rule->seen > rule->nth)))
            first = rule;
    }
    if (!first)
        return none;
    tell(call);
    return *first;
}

static int is(const struct rule *rule, const char *way) {
    return !strcmp(rule->way, way);
}

/* Does what comes before a call, and says whether the call fails. */
static int fails(const struct rule *rule) {
    if (is(rule, "kill"))
        die();
    if (is(rule, "swap"))
        syscall(SYS_rename, "other", "tables/1.tbl");
    if (is(rule, "cut"))
        syscall(SYS_truncate, "tables/1.tbl", rule->number);
    if (is(rule, "error") || is(rule, "on")) {
        errno = (int)rule->number;
        return 1;
    }
    return 0;
}

/* Does what comes behind a call, and gives its result. */
static long behind(const struct rule *rule, long result) {
    if (is(rule, "killed"))
        die();
    if (is(rule, "late")) {
        errno = (int)rule->number;
        return -1;
    }
    return result;
}

static size_t at_most(const struct rule *rule, size_t size) {
    int is_less = is(rule, "short") || is(rule, "shorts");
    return is_less && size > (size_t)rule->number ? (size_t)rule->number : size;
}

#define CALL(name, ...)                                    \
    struct rule rule = acting(name);                       \
    if (fails(&rule))                                      \
        return -1;                                         \
    if (is(&rule, "zero"))                                 \
        return 0;                                          \
    return behind(&rule, syscall(__VA_ARGS__))

static int mode_of(int flags, va_list more) {
    return flags & (O_CREAT | O_TMPFILE) ? va_arg(more, int) : 0;
}

int open(const char *path, int flags, ...) {
    va_list more;
    va_start(more, flags);
    int mode = mode_of(flags, more);
    va_end(more);
    CALL("open", SYS_openat, AT_FDCWD, path, flags, mode);
}

int openat(int folder, const char *path, int flags, ...) {
    va_list more;
    va_start(more, flags);
    int mode = mode_of(flags, more);
    va_end(more);
    CALL("openat", SYS_openat, folder, path, flags, mode);
}

int close(int file) {
    struct rule rule = acting("close");
    int is_wrong = fails(&rule), error = errno;
    long closed = behind(&rule, syscall(SYS_close, file));
    if (!is_wrong)
        return (int)closed;
    errno = error;
    return -1;
}

off_t lseek(int file, off_t to, int from) {
    if (file == 0)
        return syscall(SYS_lseek, file, to, from);
    CALL("lseek", SYS_lseek, file, to, from);
}

int rename(const char *from, const char *to) {
    CALL("rename", SYS_rename, from, to);
}

int unlink(const char *path) {
    room = -1;
    CALL("unlink", SYS_unlink, path);
}

int mkdir(const char *path, mode_t mode) {
    CALL("mkdir", SYS_mkdir, path, mode);
}

int statx(int folder, const char *restrict path, int flags, unsigned mask, struct statx *restrict into) {
    CALL("statx", SYS_statx, folder, path, flags, mask, into);
}

ssize_t getdents64(int folder, void *into, size_t size) {
    struct rule rule = acting("getdents64");
    if (fails(&rule))
        return -1;
    return behind(&rule, syscall(SYS_getdents64, folder, into, at_most(&rule, size)));
}

ssize_t read(int file, void *into, size_t size) {
    struct rule rule = acting(file == 0 ? "input" : "read");
    if (fails(&rule))
        return -1;
    if (is(&rule, "zero"))
        return 0;
    return behind(&rule, syscall(SYS_read, file, into, at_most(&rule, size)));
}

ssize_t write(int file, const void *from, size_t size) {
    struct rule rule = acting(file == 1 ? "output" : "write");
    if (fails(&rule))
        return -1;
    if (is(&rule, "zero"))
        return 0;
    if (is(&rule, "half")) {
        syscall(SYS_write, file, from, size / 2);
        die();
    }
    if (file > 2 && room >= 0 && (size_t)room < size) {
        tell("room");
        if (room == 0) {
            errno = (int)room_error;
            return -1;
        }
        size = (size_t)room;
    }
    long written = syscall(SYS_write, file, from, at_most(&rule, size));
    if (file > 2 && room >= 0 && written > 0)
        room -= written;
    return behind(&rule, written);
}

void *malloc(size_t size) {
    struct rule rule = acting("malloc");
    return fails(&rule) ? NULL : __libc_malloc(size);
}

void *realloc(void *old, size_t size) {
    struct rule rule = acting("realloc");
    return fails(&rule) ? NULL : __libc_realloc(old, size);
}
