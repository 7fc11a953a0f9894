/* A shim that refuses memory, for tools/refuse_allocations: cc -shared -fPIC fail_alloc.c -o fail_alloc.so, loaded by LD_PRELOAD.
 *
 * It counts the calls of malloc and realloc that ask for something, from 1. Where FAIL_FOLDER names a folder, then at each call from
 * FAIL_FIRST to FAIL_LAST (all, if not told; with FAIL_EVERY at each so-manieth of these) two children go on in the program's place, one after
 * the other: to one that call is refused, to the other that one and the seven behind it. A child writes into a file of its own. Where it ends with status 5 and wrote nothing,
 * it is counted and the file goes; else the file NUMBER.LENGTH stays in the folder, and the file `ended` there gets a line with the
 * number of the call, how many were refused, and the status, or -1 where the child was killed. The program itself is refused nothing. At
 * its end `ended` gets a last line: `all`, how many calls there were, and how many children were counted.
 *
 * It is for Linux, programs of one thread that read standard input from a file, and the GNU C library, which has both functions under a second name. */
#include <errno.h>
#include <fcntl.h>
#include <stdio.h>
#include <stdlib.h>
#include <sys/stat.h>
#include <sys/wait.h>
#include <unistd.h>

enum { NO_MEMORY = 5, MOST_SECONDS = 600 };

extern void *__libc_malloc(size_t size);
extern void *__libc_realloc(void *old, size_t size);

static const char *folder;
static unsigned long count, first, last, every, counted;
static unsigned long refused_to; /* in a child the last call that is refused, and 0 in the program itself */
static int ended = -1;

static unsigned long number_in(const char *name, unsigned long otherwise) {
    const char *text = getenv(name);
    return text ? strtoul(text, NULL, 10) : otherwise;
}

__attribute__((constructor)) static void begin(void) {
    char path[4096];
    first = number_in("FAIL_FIRST", 1);
    last = number_in("FAIL_LAST", -1UL);
    every = number_in("FAIL_EVERY", 1);
    folder = getenv("FAIL_FOLDER");
    if (folder) {
        snprintf(path, sizeof path, "%s/ended", folder);
        ended = open(path, O_CREAT | O_TRUNC | O_WRONLY | O_CLOEXEC, 0600);
    }
    count = 0;
}

/* Writes into the file at a path, and reads on where the program stands without moving it on there. */
static void part_from_program(const char *path) {
    off_t at = lseek(0, 0, SEEK_CUR);
    int in = open("/proc/self/fd/0", O_RDONLY), out = open(path, O_CREAT | O_TRUNC | O_WRONLY, 0600);
    if (lseek(in, at, SEEK_SET) != at || dup2(in, 0) < 0 || dup2(out, 1) < 0) abort();
    alarm(MOST_SECONDS);
}

/* Lets a child go on to which so many calls are refused, from this one on. Answers 1 in the child, and 0 once it has ended. */
static int goes_on_without(unsigned long length) {
    char path[4096], line[128];
    struct stat written;
    int status = -1;
    snprintf(path, sizeof path, "%s/%lu.%lu", folder, count, length);
    pid_t child = fork();
    if (child == 0) {
        refused_to = count + length - 1;
        part_from_program(path);
        return 1;
    }
    waitpid(child, &status, 0);
    int code = WIFEXITED(status) ? WEXITSTATUS(status) : -1;
    if (code == NO_MEMORY && stat(path, &written) == 0 && written.st_size == 0) {
        counted++;
        unlink(path);
        return 0;
    }
    int size = snprintf(line, sizeof line, "%lu %lu %d\n", count, length, code);
    if (write(ended, line, size) != size) abort();
    return 0;
}

static int is_tried(void) { return ended >= 0 && refused_to == 0 && first <= count && count <= last && (count - first) % every == 0; }

static int is_refused(size_t size) {
    if (size == 0) return 0;
    count++;
    if (is_tried()) (void)(goes_on_without(1) || goes_on_without(8));
    if (count > refused_to) return 0;
    errno = ENOMEM;
    return 1;
}

void *malloc(size_t size) { return is_refused(size) ? NULL : __libc_malloc(size); }

void *realloc(void *old, size_t size) { return is_refused(size) ? NULL : __libc_realloc(old, size); }

__attribute__((destructor)) static void end(void) {
    char line[128];
    if (ended < 0 || refused_to > 0) return;
    int size = snprintf(line, sizeof line, "all %lu %lu\n", count, counted);
    if (write(ended, line, size) != size) abort();
}
