/* Reads a file of inputs, and writes an archive:
 *
 *     archive unpack FOLDER <FILE    makes each input in FOLDER, under the last part of its path
 *     archive pack NAME >FILE        writes the archive of a file, a link or a folder
 *
 * An archive is a row of strings, each with its length in eight bytes, the lowest first, and with zeros behind it
 * up to a multiple of eight. docs/builders.md says what a file of inputs has. The status is 1, and standard error
 * has a message, where something is ill-formed or cannot be read, made or written.
 */
#define _XOPEN_SOURCE 700
#include <dirent.h>
#include <fcntl.h>
#include <limits.h>
#include <stdio.h>
#include <stdlib.h>
#include <string.h>
#include <sys/stat.h>
#include <unistd.h>

/* Bytes in memory, with a zero byte behind them. */
struct text {
    size_t length;
    char *bytes;
};

static void fail(const char *what) {
    perror(what);
    exit(1);
}

static void *grown(void *block, size_t size) {
    block = realloc(block, size);
    if (block == NULL) fail("archive: memory");
    return block;
}

static struct text read_all(int file) {
    struct text text = {0, grown(NULL, 4097)};
    size_t room = 4096;
    ssize_t count;
    while ((count = read(file, text.bytes + text.length, room - text.length)) > 0) {
        text.length += (size_t)count;
        if (text.length == room) text.bytes = grown(text.bytes, (room *= 2) + 1);
    }
    if (count < 0) fail("archive: cannot read");
    text.bytes[text.length] = 0;
    return text;
}

/* Two names as one, with `/` between them. */
static char *joined(const char *folder, const char *name) {
    size_t size = strlen(folder) + strlen(name) + 2;
    char *path = grown(NULL, size);
    snprintf(path, size, "%s/%s", folder, name);
    return path;
}

/* ---- writing */

static void put_bytes(const char *bytes, size_t length) {
    if (fwrite(bytes, 1, length, stdout) != length) fail("archive: cannot write");
}

static void put_text(struct text text) {
    char length[8], zeros[8] = {0};
    for (int place = 0; place < 8; place++) length[place] = (char)((unsigned long long)text.length >> 8 * place);
    put_bytes(length, 8);
    put_bytes(text.bytes, text.length);
    put_bytes(zeros, -text.length % 8);
}

static void put_word(const char *word) {
    struct text text = {strlen(word), (char *)word};
    put_text(text);
}

static void put_file(const char *path, mode_t mode) {
    int file = open(path, O_RDONLY);
    if (file < 0) fail(path);
    struct text content = read_all(file);
    close(file);
    put_word("regular");
    if (mode & S_IXUSR) {
        put_word("executable");
        put_word("");
    }
    put_word("contents");
    put_text(content);
    free(content.bytes);
}

static void put_link(const char *path) {
    char target[PATH_MAX];
    ssize_t length = readlink(path, target, sizeof target);
    if (length < 0) fail(path);
    struct text text = {(size_t)length, target};
    put_word("symlink");
    put_word("target");
    put_text(text);
}

static int is_entry(const struct dirent *entry) {
    return strcmp(entry->d_name, ".") != 0 && strcmp(entry->d_name, "..") != 0;
}

static int by_bytes(const struct dirent **a, const struct dirent **b) {
    return strcmp((*a)->d_name, (*b)->d_name);
}

static void put_node(const char *path);

static void put_folder(const char *path) {
    struct dirent **entries;
    int count = scandir(path, &entries, is_entry, by_bytes);
    if (count < 0) fail(path);
    put_word("directory");
    for (int place = 0; place < count; place++) {
        char *inner = joined(path, entries[place]->d_name);
        put_word("entry");
        put_word("(");
        put_word("name");
        put_word(entries[place]->d_name);
        put_word("node");
        put_node(inner);
        put_word(")");
        free(inner);
        free(entries[place]);
    }
    free(entries);
}

static void put_node(const char *path) {
    struct stat status;
    if (lstat(path, &status) != 0) fail(path);
    put_word("(");
    put_word("type");
    if (S_ISDIR(status.st_mode)) put_folder(path);
    else if (S_ISLNK(status.st_mode)) put_link(path);
    else put_file(path, status.st_mode);
    put_word(")");
}

/* ---- reading */

static void ill_formed(void) {
    fputs("archive: the inputs are ill-formed\n", stderr);
    exit(1);
}

/* The string at the front of a text. What is left begins behind it. */
static struct text take_text(struct text *rest) {
    if (rest->length < 8) ill_formed();
    struct text text = {0, rest->bytes + 8};
    for (int place = 8; place-- > 0;) text.length = text.length << 8 | (unsigned char)rest->bytes[place];
    if (text.length > rest->length - 8) ill_formed();
    size_t whole = 8 + text.length + -text.length % 8;
    if (whole > rest->length) ill_formed();
    rest->bytes += whole;
    rest->length -= whole;
    return text;
}

static int is_word(struct text text, const char *word) {
    return text.length == strlen(word) && memcmp(text.bytes, word, text.length) == 0;
}

static void skip_word(struct text *rest, const char *word) {
    if (!is_word(take_text(rest), word)) ill_formed();
}

/* A text as a name, with a zero behind it. */
static char *name_of(struct text text) {
    char *name = grown(NULL, text.length + 1);
    memcpy(name, text.bytes, text.length);
    name[text.length] = 0;
    return name;
}

static void make_file(const char *path, struct text content, mode_t mode) {
    int file = open(path, O_WRONLY | O_CREAT | O_EXCL, mode);
    if (file < 0) fail(path);
    while (content.length > 0) {
        ssize_t count = write(file, content.bytes, content.length);
        if (count < 0) fail(path);
        content.bytes += count;
        content.length -= (size_t)count;
    }
    if (close(file) != 0) fail(path);
}

static void make_regular(struct text *rest, const char *path) {
    struct text word = take_text(rest);
    mode_t mode = 0644;
    if (is_word(word, "executable")) {
        mode = 0755;
        skip_word(rest, "");
        word = take_text(rest);
    }
    if (!is_word(word, "contents")) ill_formed();
    make_file(path, take_text(rest), mode);
    skip_word(rest, ")");
}

static void make_link(struct text *rest, const char *path) {
    skip_word(rest, "target");
    char *target = name_of(take_text(rest));
    if (symlink(target, path) != 0) fail(path);
    free(target);
    skip_word(rest, ")");
}

static void make_node(struct text *rest, const char *path);

static void make_folder(struct text *rest, const char *path) {
    if (mkdir(path, 0755) != 0) fail(path);
    struct text word = take_text(rest);
    while (is_word(word, "entry")) {
        skip_word(rest, "(");
        skip_word(rest, "name");
        char *name = name_of(take_text(rest)), *inner = joined(path, name);
        skip_word(rest, "node");
        make_node(rest, inner);
        skip_word(rest, ")");
        free(name);
        free(inner);
        word = take_text(rest);
    }
    if (!is_word(word, ")")) ill_formed();
}

static void make_node(struct text *rest, const char *path) {
    skip_word(rest, "(");
    skip_word(rest, "type");
    struct text kind = take_text(rest);
    if (is_word(kind, "directory")) make_folder(rest, path);
    else if (is_word(kind, "symlink")) make_link(rest, path);
    else if (is_word(kind, "regular")) make_regular(rest, path);
    else ill_formed();
}

static void make_input(struct text *rest, const char *folder) {
    char *path = name_of(take_text(rest));
    struct text archive = take_text(rest);
    char *last = strrchr(path, '/');
    if (last == NULL) ill_formed();
    char *place = joined(folder, last + 1);
    skip_word(&archive, "nix-archive-1");
    make_node(&archive, place);
    free(path);
    free(place);
}

int main(int count, char **words) {
    if (count == 3 && strcmp(words[1], "pack") == 0) {
        put_word("nix-archive-1");
        put_node(words[2]);
        if (fflush(stdout) != 0) fail("archive: cannot write");
        return 0;
    }
    if (count == 3 && strcmp(words[1], "unpack") == 0) {
        struct text rest = read_all(STDIN_FILENO);
        while (rest.length > 0) make_input(&rest, words[2]);
        return 0;
    }
    fputs("archive: unpack FOLDER, or pack NAME\n", stderr);
    return 1;
}
