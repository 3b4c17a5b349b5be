// Refuses requests for memory of the program that it is loaded into, for tools/refuse-allocations.sh.
//
// REFUSE_ALLOCATION is the number of the request, counted from 1, and REFUSE_MARK the file that it makes as it refuses. The file has the
// places of the program that were asking, the innermost first: offsets in hexadecimal, in one line.
//
// With REFUSE_EACH, the name of a folder, each request is refused instead, in a copy of the process that goes on to its end; the process
// itself gets its memory. Its file `log` has a line for each copy: the number of the request, how the copy ended, the places, a colon, and
// the first line that the copy wrote to the standard error. The program must have one thread, and mustn't read its standard input.
//
// All other requests go to the C library, by the names under which that has them beside `malloc` and `realloc`.

#define _GNU_SOURCE
#include <errno.h>
#include <execinfo.h>
#include <fcntl.h>
#include <limits.h>
#include <link.h>
#include <stdio.h>
#include <stdlib.h>
#include <string.h>
#include <sys/wait.h>
#include <unistd.h>

// How long a copy may take, in seconds.
#define LONGEST 60

extern void *__libc_malloc(size_t size);
extern void *__libc_realloc(void *block, size_t size);

// Whether a request is one of this file itself, or of what it calls.
static int is_own;
static long number;
static long refused_number;
static const char *folder;
static int log_file = -1;

static int open_in_folder(const char *name, int flags) {
    char path[PATH_MAX];
    snprintf(path, sizeof path, "%s/%s", folder, name);
    return open(path, O_CREAT | flags, 0600);
}

static void begin(void) {
    const char *wanted = getenv("REFUSE_ALLOCATION");
    refused_number = wanted ? atol(wanted) : 0;
    folder = getenv("REFUSE_EACH");
    if (folder)
        log_file = open_in_folder("log", O_WRONLY | O_APPEND);
}

// Where the program's code is, of which the loader tells first.
struct code {
    size_t base, from, to;
};

static int find_code(struct dl_phdr_info *info, size_t size, void *found) {
    struct code *code = found;
    (void)size;
    code->base = info->dlpi_addr;
    for (int at = 0; at < info->dlpi_phnum; at++) {
        const ElfW(Phdr) *part = &info->dlpi_phdr[at];
        if (part->p_type == PT_LOAD && part->p_flags & PF_X) {
            code->from = code->base + part->p_vaddr;
            code->to = code->from + part->p_memsz;
        }
    }
    return 1;
}

static void write_places(int file) {
    struct code code = {0, 0, 0};
    void *places[16];
    dl_iterate_phdr(find_code, &code);
    int count = backtrace(places, 16);
    for (int at = 0; at < count; at++) {
        size_t place = (size_t)places[at];
        if (code.from < place && place <= code.to)
            dprintf(file, "%zx ", place - code.base - 1);
    }
}

static void mark(void) {
    const char *path = getenv("REFUSE_MARK");
    int file = path ? open(path, O_CREAT | O_WRONLY, 0600) : -1;
    write_places(file);
    close(file);
}

// The copy of a process that is refused memory. What it writes goes into the folder.
static void become_copy(void) {
    close(log_file);
    dup2(open_in_folder("out", O_WRONLY | O_TRUNC), STDOUT_FILENO);
    dup2(open_in_folder("err", O_WRONLY | O_TRUNC), STDERR_FILENO);
    folder = NULL;
    alarm(LONGEST);
}

static void tell_of_copy(pid_t copy) {
    char line[200];
    int status = 0;
    waitpid(copy, &status, 0);
    int file = open_in_folder("err", O_RDONLY);
    ssize_t read_bytes = read(file, line, sizeof line - 1);
    close(file);
    line[read_bytes > 0 ? read_bytes : 0] = 0;
    line[strcspn(line, "\n")] = 0;
    dprintf(log_file, "%ld %d ", number, WIFEXITED(status) ? WEXITSTATUS(status) : 128 + WTERMSIG(status));
    write_places(log_file);
    dprintf(log_file, ": %s\n", line);
}

static int is_refused(void) {
    if (is_own)
        return 0;
    is_own = 1;
    if (number++ == 0)
        begin();
    int refused = 0;
    if (folder) {
        pid_t copy = fork();
        if (copy < 0)
            abort();
        refused = copy == 0;
        if (refused)
            become_copy();
        else
            tell_of_copy(copy);
    } else if (number == refused_number) {
        refused = 1;
        mark();
    }
    is_own = 0;
    if (refused)
        errno = ENOMEM;
    return refused;
}

void *malloc(size_t size) {
    return is_refused() ? NULL : __libc_malloc(size);
}

void *realloc(void *block, size_t size) {
    return is_refused() ? NULL : __libc_realloc(block, size);
}
