/* Lets one call of a program fail, once. FAILING_CALL names the call, FAILING_AT says which of them fails, from 1 on,
 * and FAILING_WITH is the number of the error. Calls are counted that a build needs: of `open`, `write` and `unlink`
 * those of files of inputs (`open_null`: those of /dev/null), of `read` those of a pipe; `write` and `read` once for
 * each file. */
#define _GNU_SOURCE
#include <dlfcn.h>
#include <errno.h>
#include <fcntl.h>
#include <spawn.h>
#include <stdarg.h>
#include <stdlib.h>
#include <string.h>
#include <sys/types.h>
#include <unistd.h>

#define MOST_FILES 4096

enum kind { OTHER, INPUTS, PIPE };

static enum kind kinds[MOST_FILES];
static int counted;

static void *next(const char *name) {
    return dlsym(RTLD_NEXT, name);
}

static void note(int file, enum kind kind) {
    if (file >= 0 && file < MOST_FILES)
        kinds[file] = kind;
}

/* Whether this is the first call of a kind for a file. */
static int is_first(int file, enum kind kind) {
    if (file < 0 || file >= MOST_FILES || kinds[file] != kind)
        return 0;
    kinds[file] = OTHER;
    return 1;
}

/* Whether this call is the one that fails; the error is in `errno` then. */
static int fails(const char *call) {
    const char *name = getenv("FAILING_CALL");
    if (!name || strcmp(name, call) != 0 || __sync_add_and_fetch(&counted, 1) != atoi(getenv("FAILING_AT")))
        return 0;
    errno = atoi(getenv("FAILING_WITH"));
    return 1;
}

static int open_as(const char *name, const char *path, int flags, mode_t mode) {
    int inputs = strstr(path, "inputs-") != NULL;
    if ((inputs && fails("open")) || (strcmp(path, "/dev/null") == 0 && fails("open_null")))
        return -1;
    int file = ((int (*)(const char *, int, ...))next(name))(path, flags, mode);
    note(file, inputs ? INPUTS : OTHER);
    return file;
}

int open(const char *path, int flags, ...) {
    va_list words;
    va_start(words, flags);
    mode_t mode = flags & O_CREAT ? va_arg(words, mode_t) : 0;
    va_end(words);
    return open_as("open", path, flags, mode);
}

int open64(const char *path, int flags, ...) {
    va_list words;
    va_start(words, flags);
    mode_t mode = flags & O_CREAT ? va_arg(words, mode_t) : 0;
    va_end(words);
    return open_as("open64", path, flags, mode);
}

ssize_t write(int file, const void *bytes, size_t count) {
    if (is_first(file, INPUTS) && fails("write"))
        return -1;
    return ((ssize_t (*)(int, const void *, size_t))next("write"))(file, bytes, count);
}

ssize_t read(int file, void *bytes, size_t count) {
    if (is_first(file, PIPE) && fails("read"))
        return -1;
    return ((ssize_t (*)(int, void *, size_t))next("read"))(file, bytes, count);
}

int unlink(const char *path) {
    if (strstr(path, "inputs-") && fails("unlink"))
        return -1;
    return ((int (*)(const char *))next("unlink"))(path);
}

int pipe(int ends[2]) {
    if (fails("pipe"))
        return -1;
    int status = ((int (*)(int *))next("pipe"))(ends);
    if (status == 0)
        note(ends[0], PIPE);
    return status;
}

int pipe2(int ends[2], int flags) {
    if (fails("pipe"))
        return -1;
    int status = ((int (*)(int *, int))next("pipe2"))(ends, flags);
    if (status == 0)
        note(ends[0], PIPE);
    return status;
}

int posix_spawn(pid_t *child, const char *path, const posix_spawn_file_actions_t *actions,
                const posix_spawnattr_t *attributes, char *const words[], char *const environment[]) {
    if (fails("posix_spawn"))
        return errno;
    return ((int (*)(pid_t *, const char *, const posix_spawn_file_actions_t *, const posix_spawnattr_t *,
                     char *const *, char *const *))next("posix_spawn"))(child, path, actions, attributes, words,
                                                                         environment);
}

pid_t waitpid(pid_t child, int *status, int options) {
    if (fails("waitpid"))
        return -1;
    return ((pid_t (*)(pid_t, int *, int))next("waitpid"))(child, status, options);
}
