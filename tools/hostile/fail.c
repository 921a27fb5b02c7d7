/* Makes calls of a program fail, one in each copy of it. tools/hostile/shim.py compiles it and says it to the loader
 * (LD_PRELOAD).
 *
 * The program runs as it would, but at each call of a wanted kind it is copied by fork: in the copy that call fails,
 * and nothing else does. The copy runs to its end while the program waits; then a record is written of how it ended
 * and of what it had written, and the program goes on. So one run tries every call, each alone.
 *
 * What the program writes to its standard output is kept in memory, and what it reads from its standard input is taken
 * from memory, so that copies don't disturb each other. A program that was compiled with the address sanitizer has an
 * allocator of its own; its first bytes are overwritten with a jump to the one here.
 *
 * The environment says what is wanted:
 *   LARCH_FAIL_KINDS     letters: r a read of the standard input fails, e it ends there, i it is interrupted once, f a
 *                        read of a file fails, o an opening of a file fails, w a write to the standard output fails,
 *                        j it is interrupted once, a an allocation fails, z that one and all behind it do
 *   LARCH_FAIL_ERRNO     the number of the error that r, f, o and w come with
 *   LARCH_FAIL_PIECE     how many bytes a read or a write moves at most; 0 is as many as are asked for
 *   LARCH_FAIL_STEP, LARCH_FAIL_FROM    of the calls of a kind, each so manieth is tried, from this one on, the first
 *                        being 1
 *   LARCH_FAIL_EXPECTED  a file with what the program writes where nothing fails
 *   LARCH_FAIL_RECORDS   a file to which records are written; the last one is the program's own
 *   LARCH_FAIL_SECONDS   how long a copy may run */
#define _GNU_SOURCE
#include <dlfcn.h>
#include <errno.h>
#include <linux/fcntl.h>
#include <signal.h>
#include <stdint.h>
#include <stdlib.h>
#include <string.h>
#include <sys/mman.h>
#include <sys/stat.h>
#include <sys/syscall.h>
#include <sys/wait.h>
#include <unistd.h>

enum { MOST_FILES = 1024, MOST_REST = 64 };
static const size_t MOST_OUTPUT = 64u << 20;

/* What became of a copy. */
struct record {
    char kind;
    char pad[3];
    int32_t status;  /* as waitpid tells it */
    uint64_t number; /* which call of its kind failed, from 1 */
    uint64_t given;  /* bytes of the standard input that the program had been given */
    uint64_t length; /* bytes that were written in all */
    uint64_t common; /* how many of them are as in the expected output */
    char rest[MOST_REST];
};

/* Of what a copy writes its length stands before it. */
struct output {
    uint64_t length;
    char bytes[];
};

static const char *kinds = "";
static int wanted_errno = EIO, is_copy = 0, is_ready = 0, fails_on = 0, records = -1;
static unsigned seconds = 60;
static uint64_t step = 1, from = 1, piece = 0, counts[256];
static struct output *written, *copied;
static char *expected = "", *input = "";
static uint64_t expected_length = 0, input_length = 0, given = 0;
static off_t places[MOST_FILES];

static void *(*real_reallocarray)(void *, size_t, size_t);
extern void *__libc_malloc(size_t);
extern void *__libc_realloc(void *, size_t);
extern void *__libc_calloc(size_t, size_t);

static void stop(const char *why) {
    syscall(SYS_write, 2, why, strlen(why));
    syscall(SYS_exit_group, 99);
}

static void *room(size_t size, int how) {
    void *made = mmap(NULL, size, PROT_READ | PROT_WRITE, how | MAP_ANONYMOUS | MAP_NORESERVE, -1, 0);
    if (made == MAP_FAILED) stop("fail.c: no room\n");
    return made;
}

/* The bytes that a file has left. */
static char *all_of(int file, uint64_t *length) {
    struct stat about;
    if (syscall(SYS_fstat, file, &about) == 0 && S_ISREG(about.st_mode) && about.st_size > 0) {
        char *bytes = room(about.st_size, MAP_PRIVATE);
        while (*length < (uint64_t)about.st_size) {
            long count = syscall(SYS_read, file, bytes + *length, about.st_size - *length);
            if (count <= 0) break;
            *length += count;
        }
        return bytes;
    }
    return "";
}

static uint64_t number_of(const char *name, uint64_t without) {
    const char *text = getenv(name);
    return text ? strtoull(text, NULL, 10) : without;
}

static void write_record(char kind, uint64_t number, int status, const struct output *of, uint64_t took) {
    struct record record = {.kind = kind, .status = status, .number = number, .given = took, .length = of->length};
    uint64_t most = of->length < expected_length ? of->length : expected_length, common = 0;
    while (common < most && of->bytes[common] == expected[common]) common++;
    record.common = common;
    uint64_t rest = of->length - common;
    memcpy(record.rest, of->bytes + common, rest < MOST_REST ? rest : MOST_REST);
    if (syscall(SYS_write, records, &record, sizeof record) != sizeof record) stop("fail.c: no record\n");
}

/* Whether the call at hand, which is of this kind, fails here: only so in a copy, which is made for it. */
static int fails(char kind) {
    if (!is_ready) return 0;
    if (is_copy) return fails_on && kind == 'a';
    if (!strchr(kinds, kind) && !(kind == 'a' && strchr(kinds, 'z'))) return 0;
    uint64_t number = ++counts[(unsigned char)kind];
    if (number < from || (number - from) % step) return 0;
    for (const char *sort = kinds; *sort; sort++) {
        if (*sort != kind && !(kind == 'a' && *sort == 'z')) continue;
        copied->length = written->length;
        memcpy(copied->bytes, written->bytes, written->length);
        long child = fork();
        if (child < 0) stop("fail.c: no copy\n");
        if (child == 0) {
            is_copy = 1;
            fails_on = *sort == 'z';
            written = copied;
            alarm(seconds);
            return 1;
        }
        int status;
        while (waitpid(child, &status, 0) < 0 && errno == EINTR) {}
        write_record(*sort, number, status, copied, given);
    }
    return 0;
}

static ssize_t with_error(int number) {
    errno = number;
    return -1;
}

static size_t at_most(size_t count) {
    return piece && count > piece ? piece : count;
}

static ssize_t take_input(char *to, size_t count) {
    if (fails('i')) return with_error(EINTR);
    if (fails('r')) return with_error(wanted_errno);
    if (fails('e')) {
        input_length = given;
        return 0;
    }
    count = at_most(count);
    if (count > input_length - given) count = input_length - given;
    memcpy(to, input + given, count);
    given += count;
    return count;
}

static ssize_t take_file(int file, char *to, size_t count) {
    if (file < 0 || file >= MOST_FILES) return syscall(SYS_read, file, to, count);
    if (fails('f')) return with_error(wanted_errno);
    ssize_t took = syscall(SYS_pread64, file, to, at_most(count), places[file]);
    if (took > 0) places[file] += took;
    return took;
}

ssize_t read(int file, void *to, size_t count) {
    if (!is_ready) return syscall(SYS_read, file, to, count);
    return file == 0 ? take_input(to, count) : take_file(file, to, count);
}

ssize_t __read(int file, void *to, size_t count) { return read(file, to, count); }

ssize_t write(int file, const void *from_there, size_t count) {
    if (!is_ready || file != 1) return syscall(SYS_write, file, from_there, count);
    if (fails('j')) return with_error(EINTR);
    if (fails('w')) return with_error(wanted_errno);
    count = at_most(count);
    if (written->length + count > MOST_OUTPUT - sizeof *written) stop("fail.c: too much is written\n");
    memcpy(written->bytes + written->length, from_there, count);
    written->length += count;
    return count;
}

ssize_t __write(int file, const void *from_there, size_t count) { return write(file, from_there, count); }

static int open_file(int folder, const char *path, int how, int mode) {
    if (fails('o')) return (int)with_error(wanted_errno);
    int file = (int)syscall(SYS_openat, folder, path, how, mode);
    if (file >= 0 && file < MOST_FILES) places[file] = 0;
    return file;
}

int open(const char *path, int how, int mode) { return open_file(AT_FDCWD, path, how, mode); }
int open64(const char *path, int how, int mode) { return open_file(AT_FDCWD, path, how, mode); }
int __open(const char *path, int how, int mode) { return open_file(AT_FDCWD, path, how, mode); }
int openat(int folder, const char *path, int how, int mode) { return open_file(folder, path, how, mode); }
int openat64(int folder, const char *path, int how, int mode) { return open_file(folder, path, how, mode); }

static void *no_memory(void) {
    errno = ENOMEM;
    return NULL;
}

static void *allocate(size_t size) {
    if (fails('a')) return no_memory();
    return real_reallocarray ? real_reallocarray(NULL, size, 1) : __libc_malloc(size);
}

static void *allocate_again(void *old, size_t size) {
    if (fails('a')) return no_memory();
    return real_reallocarray ? real_reallocarray(old, size, 1) : __libc_realloc(old, size);
}

void *malloc(size_t size) { return allocate(size); }
void *realloc(void *old, size_t size) { return allocate_again(old, size); }
void *calloc(size_t count, size_t size) { return fails('a') ? no_memory() : __libc_calloc(count, size); }

/* Overwrites the beginning of a function, which may be a jump to where it really begins, with a jump to another. */
static void jump(unsigned char *at, void *to) {
    while (*at == 0xe9) {
        int32_t far;
        memcpy(&far, at + 1, sizeof far);
        at += 5 + far;
    }
    unsigned char code[12] = {0x48, 0xb8, 0, 0, 0, 0, 0, 0, 0, 0, 0xff, 0xe0};
    memcpy(code + 2, &to, sizeof to);
    uintptr_t page = (uintptr_t)at & ~(uintptr_t)4095;
    if (mprotect((void *)page, 8192, PROT_READ | PROT_WRITE | PROT_EXEC)) stop("fail.c: code can't be changed\n");
    memcpy(at, code, sizeof code);
    if (mprotect((void *)page, 8192, PROT_READ | PROT_EXEC)) stop("fail.c: code can't be changed\n");
}

/* Where the code at an address was loaded from. */
static void *object_of(void *address) {
    Dl_info about;
    return dladdr(address, &about) ? about.dli_fbase : NULL;
}

/* Puts two functions from above in the place of those of the program, where it has an allocator of its own. That of the
 * address sanitizer has a third call, by which the two are done. */
static void replace_allocator(void) {
    void *own = dlsym(RTLD_DEFAULT, "malloc"), *third = dlsym(RTLD_DEFAULT, "reallocarray");
    if (object_of(own) == object_of((void *)allocate)) return;
    if (object_of(own) != object_of(third)) stop("fail.c: an unknown allocator\n");
    real_reallocarray = (void *(*)(void *, size_t, size_t))third;
    jump(own, (void *)allocate);
    jump(dlsym(RTLD_DEFAULT, "realloc"), (void *)allocate_again);
}

__attribute__((constructor)) static void begin(void) {
    const char *name = getenv("LARCH_FAIL_RECORDS");
    if (!name) return;
    records = (int)syscall(SYS_openat, AT_FDCWD, name, O_WRONLY | O_CREAT | O_APPEND | O_CLOEXEC, 0600);
    if (records < 0) stop("fail.c: no file for records\n");
    kinds = getenv("LARCH_FAIL_KINDS") ?: "";
    wanted_errno = (int)number_of("LARCH_FAIL_ERRNO", EIO);
    piece = number_of("LARCH_FAIL_PIECE", 0);
    step = number_of("LARCH_FAIL_STEP", 1);
    from = number_of("LARCH_FAIL_FROM", 1);
    seconds = (unsigned)number_of("LARCH_FAIL_SECONDS", 60);
    written = room(MOST_OUTPUT, MAP_PRIVATE);
    copied = room(MOST_OUTPUT, MAP_SHARED);
    name = getenv("LARCH_FAIL_EXPECTED");
    int file = name ? (int)syscall(SYS_openat, AT_FDCWD, name, O_RDONLY | O_CLOEXEC, 0) : -1;
    if (file >= 0) expected = all_of(file, &expected_length);
    input = all_of(0, &input_length);
    replace_allocator();
    is_ready = 1;
}

/* The program's own end, and how many calls of each kind there were, in the record's other fields. */
__attribute__((destructor)) static void end(void) {
    if (is_copy || !is_ready) return;
    is_ready = 0;
    for (const char *kind = kinds; *kind; kind++)
        write_record('#', counts[(unsigned char)*kind], *kind, written, given);
    write_record('.', 0, 0, written, given);
}
