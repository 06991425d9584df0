/* Starts so many processes one after another, and reads what each writes: builders NB COUNT
 *
 * The process of number N is `NB text N`, with the variables of a derivation without inputs. Its standard input is
 * empty, and its standard error is dropped. The status is 1 where one cannot be started, read or waited for, or
 * does not end with status 0. It is what bench/builders measures `intstore run` against.
 */
#define _XOPEN_SOURCE 700
#include <fcntl.h>
#include <spawn.h>
#include <stdio.h>
#include <stdlib.h>
#include <sys/wait.h>
#include <unistd.h>

static void fail(const char *what) {
    perror(what);
    exit(1);
}

static void check(int error, const char *what) {
    if (error != 0) {
        fprintf(stderr, "%s: error %d\n", what, error);
        exit(1);
    }
}

/* Where the three standard streams of a process go: the last end of the pipe is that which it writes to. */
static void direct(posix_spawn_file_actions_t *actions, const int ends[2]) {
    check(posix_spawn_file_actions_init(actions), "builders: actions");
    check(posix_spawn_file_actions_addopen(actions, 0, "/dev/null", O_RDONLY, 0), "builders: input");
    check(posix_spawn_file_actions_adddup2(actions, ends[1], 1), "builders: output");
    check(posix_spawn_file_actions_addopen(actions, 2, "/dev/null", O_WRONLY, 0), "builders: errors");
    check(posix_spawn_file_actions_addclose(actions, ends[0]), "builders: pipe");
    check(posix_spawn_file_actions_addclose(actions, ends[1]), "builders: pipe");
}

static pid_t start(char *program, char *number, const int ends[2]) {
    char name[64];
    char *words[] = {program, "text", number, NULL};
    char *variables[] = {name, "out=/nix/store/00000000000000000000000000000000-n", "INPUTS=./inputs-u1-1", NULL};
    posix_spawn_file_actions_t actions;
    pid_t process;
    snprintf(name, sizeof name, "name=n%s", number);
    direct(&actions, ends);
    check(posix_spawn(&process, program, &actions, NULL, words, variables), program);
    posix_spawn_file_actions_destroy(&actions);
    return process;
}

static void read_to_the_end(int file) {
    static char bytes[1 << 16];
    ssize_t count;
    while ((count = read(file, bytes, sizeof bytes)) > 0) {}
    if (count < 0) fail("builders: cannot read");
}

static void build(char *program, int number) {
    char word[32];
    int ends[2], status;
    snprintf(word, sizeof word, "%d", number);
    if (pipe(ends) != 0) fail("builders: pipe");
    pid_t process = start(program, word, ends);
    close(ends[1]);
    read_to_the_end(ends[0]);
    close(ends[0]);
    if (waitpid(process, &status, 0) != process) fail("builders: cannot wait");
    if (status != 0) {
        fprintf(stderr, "builders: %s text %d: status %d\n", program, number, status);
        exit(1);
    }
}

int main(int count, char **words) {
    if (count != 3) {
        fputs("builders: NB COUNT\n", stderr);
        return 2;
    }
    for (int number = 1; number <= atoi(words[2]); number++) build(words[1], number);
    return 0;
}
