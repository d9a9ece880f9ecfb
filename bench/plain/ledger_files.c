/* ledger_files DIR TEXTS ACCOUNTS    the files of a run of a site, and nothing else

   Makes just such calls as the protocol of a site's ledger names, and a plain run of its deck does not make: all texts are claimed (linked, the
   folder synced, removed from their boxes, these synced); each is looked at and read, a commit takes it (written, synced, renamed, the folder
   synced), and it is removed; each has an attempt noted and a commit when it has run; behind each sixteen their answers are put (written,
   synced, renamed, the folders synced), and a commit says so. DIR has in/0/0, in/1/1, .., by account, the empty folders taken, ledger and
   out/0, .., and in was/ the commits of a real run, whose bytes are read before the clock begins and written here. Prints the seconds by the
   clock, and those of the processor. */
#include <errno.h>
#include <fcntl.h>
#include <stdio.h>
#include <stdlib.h>
#include <sys/resource.h>
#include <sys/stat.h>
#include <time.h>
#include <unistd.h>

struct bytes {
    char *at;
    size_t count;
};

static void need(int done, const char *what)
{
    if (!done) {
        perror(what);
        exit(1);
    }
}

static struct bytes read_file(const char *path)
{
    struct stat is;
    int file = open(path, O_RDONLY);
    need(file >= 0 && fstat(file, &is) == 0, path);
    struct bytes bytes = {malloc(is.st_size + 1), is.st_size};
    for (size_t had = 0; had < bytes.count;) {
        ssize_t more = read(file, bytes.at + had, bytes.count - had);
        need(more > 0, path);
        had += more;
    }
    close(file);
    return bytes;
}

static void sync_at(const char *path)
{
    int file = open(path, O_RDONLY);
    need(file >= 0 && fsync(file) == 0 && close(file) == 0, path);
}

static void write_to(const char *path, int flags, struct bytes bytes)
{
    int file = open(path, O_WRONLY | O_CREAT | flags, 0600);
    need(file >= 0, path);
    for (size_t had = 0; had < bytes.count;) {
        ssize_t more = write(file, bytes.at + had, bytes.count - had);
        need(more > 0, path);
        had += more;
    }
    need(close(file) == 0, path);
}

static void put(const char *draft, const char *path, struct bytes bytes)
{
    need(unlink(draft) == 0 || errno == ENOENT, draft);
    write_to(draft, O_EXCL, bytes);
    sync_at(draft);
    need(rename(draft, path) == 0, path);
}

static void commit(int number, struct bytes bytes)
{
    char path[64];
    snprintf(path, sizeof path, "ledger/%08d", number);
    put("commit", path, bytes);
    sync_at("ledger");
}

static void look_at(const char *path)
{
    char text[4096];
    struct stat is;
    need(lstat(path, &is) == 0, path);
    int file = open(path, O_RDONLY);
    need(file >= 0 && fstat(file, &is) == 0 && read(file, text, sizeof text) >= 0 && close(file) == 0, path);
}

static void sync_each(const char *kind, int accounts)
{
    char path[64];
    for (int k = 0; k < accounts; k++) {
        snprintf(path, sizeof path, "%s/%d", kind, k);
        sync_at(path);
    }
}

static void claim(int texts, int accounts)
{
    char from[64], to[64];
    for (int k = 0; k < texts; k++) {
        snprintf(from, sizeof from, "in/%d/%d", k % accounts, k);
        snprintf(to, sizeof to, "taken/%d", k);
        need(link(from, to) == 0, from);
    }
    sync_at("taken");
    for (int k = 0; k < texts; k++) {
        snprintf(from, sizeof from, "in/%d/%d", k % accounts, k);
        need(unlink(from) == 0, from);
    }
    sync_each("in", accounts);
}

static void answer(int first, int last, int accounts)
{
    char path[64], line[] = "JOB 1 user00\nEND NORMAL AFTER 12\n";
    struct bytes bytes = {line, sizeof line - 1};
    for (int k = first; k < last; k++) {
        snprintf(path, sizeof path, "out/%d/%d", k % accounts, k);
        put("answer", path, bytes);
    }
    sync_each("out", accounts);
}

static double seconds_of(struct timeval time)
{
    return time.tv_sec + time.tv_usec / 1e6;
}

int main(int count, char **words)
{
    need(count == 4 && chdir(words[1]) == 0, "ledger_files DIR TEXTS ACCOUNTS");
    int texts = atoi(words[2]), accounts = atoi(words[3]), needed = 2 * texts + (texts + 15) / 16;
    char path[64];
    struct bytes *was = malloc(2 * (needed + 1) * sizeof *was), noted = {"2 1 1 1 1\n", 10};
    int commits = 0;
    for (; commits < 2 * (needed + 1); commits++) {
        snprintf(path, sizeof path, "was/%08d", commits);
        if (access(path, R_OK) != 0) break;
        was[commits] = read_file(path);
    }
    int next = commits - needed; /* behind those that made the site */
    need(next >= 0, "was");
    struct timespec begun, ended;
    struct rusage before, after;
    clock_gettime(CLOCK_MONOTONIC, &begun);
    getrusage(RUSAGE_SELF, &before);
    claim(texts, accounts);
    for (int k = 0; k < texts; k++, next++) {
        snprintf(path, sizeof path, "taken/%d", k);
        look_at(path);
        commit(next, was[next]);
        need(unlink(path) == 0, path);
    }
    for (int first = 0; first < texts; first += 16) {
        int last = first + 16 < texts ? first + 16 : texts;
        for (int k = first; k < last; k++, next++) {
            write_to("attempt", O_TRUNC, noted);
            commit(next, was[next]);
        }
        answer(first, last, accounts);
        commit(next, was[next]);
        next++;
    }
    clock_gettime(CLOCK_MONOTONIC, &ended);
    getrusage(RUSAGE_SELF, &after);
    printf("%.3f %.3f\n", ended.tv_sec - begun.tv_sec + (ended.tv_nsec - begun.tv_nsec) / 1e9,
           seconds_of(after.ru_utime) + seconds_of(after.ru_stime) - seconds_of(before.ru_utime) - seconds_of(before.ru_stime));
}
