/* Lets each read of standard input and each write of standard output fail in turn, in one run: at each of them a child is begun, in which this call fails. A read gives,
   and a write takes, at most PIECE octets. The file FAILING_CALLS, where it is named, gets a line for each child: `read` or `write`, the number of the call from 1, how
   many octets were written before it, the status of the child, how many reads and writes it made after the one that failed, and what it wrote in hexadecimal, `-` for
   nothing; and at the end `end READS WRITES`. Where it isn't named, no call fails. */
#define _GNU_SOURCE
#include <dlfcn.h>
#include <errno.h>
#include <fcntl.h>
#include <stdio.h>
#include <stdlib.h>
#include <sys/mman.h>
#include <sys/wait.h>
#include <unistd.h>

typedef ssize_t read_call(int, void *, size_t);
typedef ssize_t write_call(int, const void *, size_t);

struct calls {
    long reads, writes;
};

static read_call *libc_read;
static write_call *libc_write;
static struct calls own, *after;
static long octets_written;
static size_t piece;
static int is_child;
static FILE *report;

__attribute__((constructor)) static void begin(void) {
    const char *most = getenv("PIECE"), *path = getenv("FAILING_CALLS");
    libc_read = (read_call *)dlsym(RTLD_NEXT, "read");
    libc_write = (write_call *)dlsym(RTLD_NEXT, "write");
    piece = most ? strtoul(most, NULL, 10) : (size_t)-1;
    report = path ? fopen(path, "w") : NULL;
    after = mmap(NULL, sizeof *after, PROT_READ | PROT_WRITE, MAP_SHARED | MAP_ANONYMOUS, -1, 0);
    if (after == MAP_FAILED || (path && !report)) abort();
}

__attribute__((destructor)) static void end(void) {
    if (report && !is_child) {
        fprintf(report, "end %ld %ld\n", own.reads, own.writes);
        fclose(report);
    }
}

/* Keeps what comes out of a pipe, in hexadecimal, until the child closes it. */
static void keep_output(FILE *kept, int pipe_end) {
    unsigned char octets[4096];
    ssize_t count;
    int is_empty = 1;
    while ((count = libc_read(pipe_end, octets, sizeof octets)) > 0) {
        for (ssize_t place = 0; place < count; place++) fprintf(kept, "%02X", octets[place]);
        is_empty = 0;
    }
    if (is_empty) fprintf(kept, "-");
}

/* The child, in which the call is to fail: its standard output is the pipe, and what it says on standard error is nobody's. */
static void become_child(const int pipe_ends[2]) {
    is_child = 1;
    dup2(pipe_ends[1], 1);
    close(pipe_ends[0]);
    close(pipe_ends[1]);
    dup2(open("/dev/null", O_WRONLY), 2);
}

/* Reports a child: what it wrote is read before it is waited for, so that it never waits for room in the pipe. */
static void report_child(const char *kind, long number, pid_t child, int pipe_end) {
    char *output = NULL;
    size_t length;
    int status;
    FILE *kept = open_memstream(&output, &length);
    keep_output(kept, pipe_end);
    fclose(kept);
    close(pipe_end);
    waitpid(child, &status, 0);
    status = WIFEXITED(status) ? WEXITSTATUS(status) : -1;
    fprintf(report, "%s %ld %ld %d %ld %ld %s\n", kind, number, octets_written, status, after->reads, after->writes, output);
    free(output);
}

/* Whether the call of this kind and number is to fail here: only in a child that is begun for it, for which the parent waits. */
static int fails(const char *kind, long number) {
    int pipe_ends[2];
    pid_t child;
    if (!report || is_child) return 0;
    *after = (struct calls){0, 0};
    /* else the child would write the lines that are kept back once more */
    fflush(report);
    if (pipe(pipe_ends)) abort();
    child = fork();
    if (child < 0) abort();
    if (child == 0) {
        become_child(pipe_ends);
        errno = EIO;
        return 1;
    }
    close(pipe_ends[1]);
    report_child(kind, number, child, pipe_ends[0]);
    return 0;
}

ssize_t read(int file, void *room, size_t size) {
    if (file != 0) return libc_read(file, room, size);
    own.reads++;
    if (is_child) after->reads++;
    return fails("read", own.reads) ? -1 : libc_read(file, room, size < piece ? size : piece);
}

ssize_t write(int file, const void *octets, size_t size) {
    ssize_t count;
    if (file != 1) return libc_write(file, octets, size);
    own.writes++;
    if (is_child) after->writes++;
    if (fails("write", own.writes)) return -1;
    count = libc_write(file, octets, size < piece ? size : piece);
    if (count > 0) octets_written += count;
    return count;
}
