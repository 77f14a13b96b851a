// Runs a command and cuts it, or makes a call of it fail, at a chosen one of the system calls by which it changes files or flushes them.
// Those calls are counted from 1. Ends with the command's exit status, and with 137 where the command was killed.
//
//   cut list LOG COMMAND..          notes the calls in LOG, a line each: number, kind, file, milliseconds of processor time so far
//   cut step LOG ANSWERS COMMAND..  the same, and before each call waits for a byte from ANSWERS
//   cut before N COMMAND..          kills the command when it makes call N, and the call is not done
//   cut after N COMMAND..           kills the command when call N is done, before the command sees it
//   cut fail N ERROR COMMAND..      does not do call N, and answers it with error number ERROR
//   cut short N COMMAND..           lets call N write one byte only
#define _GNU_SOURCE
#include <elf.h>
#include <errno.h>
#include <fcntl.h>
#include <signal.h>
#include <stdio.h>
#include <stdlib.h>
#include <string.h>
#include <sys/ptrace.h>
#include <sys/syscall.h>
#include <sys/uio.h>
#include <sys/user.h>
#include <sys/wait.h>
#include <time.h>
#include <unistd.h>

typedef struct __ptrace_syscall_info Info;

// Where a call names its file: by an open file's number, or by a path, in argument `at`. `flags` is the argument that must have O_CREAT.
enum { BY_NUMBER, BY_PATH };
static const struct call {
    long number;
    const char *kind;
    int by, at, flags;
} calls[] = {
    {SYS_write, "write", BY_NUMBER, 0, -1},
    {SYS_writev, "write", BY_NUMBER, 0, -1},
    {SYS_pwrite64, "write", BY_NUMBER, 0, -1},
    {SYS_pwritev, "write", BY_NUMBER, 0, -1},
    {SYS_pwritev2, "write", BY_NUMBER, 0, -1},
    {SYS_sendfile, "write", BY_NUMBER, 0, -1},
    {SYS_splice, "write", BY_NUMBER, 2, -1},
    {SYS_copy_file_range, "write", BY_NUMBER, 2, -1},
    {SYS_fallocate, "claim", BY_NUMBER, 0, -1},
    {SYS_ftruncate, "truncate", BY_NUMBER, 0, -1},
    {SYS_truncate, "truncate", BY_PATH, 0, -1},
    {SYS_fsync, "flush", BY_NUMBER, 0, -1},
    {SYS_fdatasync, "flush", BY_NUMBER, 0, -1},
    {SYS_syncfs, "flush", BY_NUMBER, 0, -1},
    {SYS_openat, "create", BY_PATH, 1, 2},
    {SYS_mkdirat, "create", BY_PATH, 1, -1},
    {SYS_mknodat, "create", BY_PATH, 1, -1},
    {SYS_linkat, "name", BY_PATH, 3, -1},
    {SYS_symlinkat, "name", BY_PATH, 2, -1},
    {SYS_renameat, "name", BY_PATH, 3, -1},
    {SYS_renameat2, "name", BY_PATH, 3, -1},
    {SYS_unlinkat, "remove", BY_PATH, 1, -1},
#ifdef SYS_open // the older calls, which not every machine has
    {SYS_open, "create", BY_PATH, 0, 1},
    {SYS_creat, "create", BY_PATH, 0, -1},
    {SYS_mkdir, "create", BY_PATH, 0, -1},
    {SYS_mknod, "create", BY_PATH, 0, -1},
    {SYS_link, "name", BY_PATH, 1, -1},
    {SYS_symlink, "name", BY_PATH, 1, -1},
    {SYS_rename, "name", BY_PATH, 1, -1},
    {SYS_unlink, "remove", BY_PATH, 0, -1},
#endif
};

static void stop(const char *what) {
    fprintf(stderr, "cut: %s: %s\n", what, strerror(errno));
    exit(99);
}

static const struct call *counted(const Info *info) {
    for (size_t i = 0; i < sizeof calls / sizeof *calls; i++) {
        const struct call *call = &calls[i];
        if ((long)info->entry.nr == call->number) return call->flags == -1 || info->entry.args[call->flags] & O_CREAT ? call : NULL;
    }
    return NULL;
}

// The machines differ in where a call's number, count and answer are.
static void with_registers(pid_t pid, int request, struct user_regs_struct *registers) {
    struct iovec part = {registers, sizeof *registers};
    if (ptrace(request, pid, NT_PRSTATUS, &part) == -1) stop("registers");
}

static void leave_out(pid_t pid) {
#if defined(__aarch64__)
    int none = -1;
    struct iovec part = {&none, sizeof none};
    if (ptrace(PTRACE_SETREGSET, pid, NT_ARM_SYSTEM_CALL, &part) == -1) stop("leaving a call out");
#elif defined(__x86_64__)
    struct user_regs_struct registers;
    with_registers(pid, PTRACE_GETREGSET, &registers);
    registers.orig_rax = -1;
    with_registers(pid, PTRACE_SETREGSET, &registers);
#else
#error "unknown machine"
#endif
}

static void answer(pid_t pid, long value) {
    struct user_regs_struct registers;
    with_registers(pid, PTRACE_GETREGSET, &registers);
#if defined(__aarch64__)
    registers.regs[0] = value;
#elif defined(__x86_64__)
    registers.rax = value;
#endif
    with_registers(pid, PTRACE_SETREGSET, &registers);
}

static void shorten(pid_t pid) {
    struct user_regs_struct registers;
    with_registers(pid, PTRACE_GETREGSET, &registers);
#if defined(__aarch64__)
    registers.regs[2] = 1;
#elif defined(__x86_64__)
    registers.rdx = 1;
#endif
    with_registers(pid, PTRACE_SETREGSET, &registers);
}

static void name_file(pid_t pid, const struct call *call, const Info *info, char *name, size_t size) {
    const unsigned long long value = info->entry.args[call->at];
    memset(name, 0, size);
    if (call->by == BY_NUMBER) {
        char link[64];
        snprintf(link, sizeof link, "/proc/%d/fd/%llu", (int)pid, value);
        if (readlink(link, name, size - 1) == -1) stop(link);
        return;
    }
    // As much of the text as there is before memory ends.
    struct iovec here = {name, size - 1}, there = {(void *)value, size - 1};
    while (process_vm_readv(pid, &here, 1, &there, 1, 0) == -1 && there.iov_len > 1) there.iov_len /= 2;
}

static void note(FILE *log, pid_t pid, long number, const struct call *call, const Info *info) {
    char name[4096];
    clockid_t clock;
    struct timespec spent = {0, 0};
    name_file(pid, call, info, name, sizeof name);
    if (clock_getcpuclockid(pid, &clock) == 0) clock_gettime(clock, &spent);
    fprintf(log, "%ld\t%s\t%s\t%ld\n", number, call->kind, name, (long)(spent.tv_sec * 1000 + spent.tv_nsec / 1000000));
    fflush(log);
}

struct plan {
    enum { LIST, STEP, BEFORE, AFTER, FAIL, SHORT } mode;
    FILE *log, *answers;
    long number, error;
};

static void at_entry(pid_t pid, const struct plan *plan, long number, const struct call *call, const Info *info) {
    if (plan->log) note(plan->log, pid, number, call, info);
    if (plan->mode == STEP && fgetc(plan->answers) == EOF) kill(pid, SIGKILL);
    if (number != plan->number) return;
    if (plan->mode == BEFORE) kill(pid, SIGKILL);
    if (plan->mode == FAIL) leave_out(pid);
    if (plan->mode == SHORT) shorten(pid);
}

static void at_exit(pid_t pid, const struct plan *plan) {
    if (plan->mode == AFTER) kill(pid, SIGKILL);
    if (plan->mode == FAIL) answer(pid, -plan->error);
}

static int follow(pid_t pid, const struct plan *plan) {
    int status, inside = 0;
    long number = 0, deliver = 0;
    if (waitpid(pid, &status, 0) == -1 || !WIFSTOPPED(status)) stop("starting");
    if (ptrace(PTRACE_SETOPTIONS, pid, 0, PTRACE_O_TRACESYSGOOD | PTRACE_O_EXITKILL | PTRACE_O_TRACEEXEC) == -1) stop("options");
    for (;; deliver = 0) {
        // A command that was just killed can't be told to go on; waiting shows its end.
        ptrace(PTRACE_SYSCALL, pid, 0, deliver);
        if (waitpid(pid, &status, 0) == -1) stop("waiting");
        if (WIFEXITED(status)) return WEXITSTATUS(status);
        if (WIFSIGNALED(status)) return 128 + WTERMSIG(status);
        if (WSTOPSIG(status) == (SIGTRAP | 0x80)) {
            Info info;
            if (ptrace(PTRACE_GET_SYSCALL_INFO, pid, sizeof info, &info) == -1) continue;
            const struct call *call = info.op == PTRACE_SYSCALL_INFO_ENTRY ? counted(&info) : NULL;
            if (info.op == PTRACE_SYSCALL_INFO_EXIT && inside) at_exit(pid, plan);
            inside = call && ++number == plan->number;
            if (call) at_entry(pid, plan, number, call, &info);
        } else if (WSTOPSIG(status) != SIGTRAP) {
            deliver = WSTOPSIG(status);
        }
    }
}

static FILE *opened(const char *path, const char *how) {
    FILE *file = fopen(path, how);
    if (!file) stop(path);
    fcntl(fileno(file), F_SETFD, FD_CLOEXEC);
    return file;
}

static char **planned(char **words, struct plan *plan) {
    static const char *const modes[] = {"list", "step", "before", "after", "fail", "short"};
    const char *mode = *words++;
    for (plan->mode = LIST; strcmp(mode, modes[plan->mode]) != 0; plan->mode++) {
        if (plan->mode == SHORT) stop("unknown mode");
    }
    if (plan->mode == LIST || plan->mode == STEP) {
        plan->log = opened(*words++, "w");
        if (plan->mode == STEP) plan->answers = opened(*words++, "r");
    } else {
        plan->number = atol(*words++);
        if (plan->mode == FAIL) plan->error = atol(*words++);
    }
    return words;
}

int main(int count, char **words) {
    struct plan plan = {0};
    if (count < 4) stop("mode, numbers and command are needed");
    char **command = planned(words + 1, &plan);
    const pid_t pid = fork();
    if (pid == -1) stop("fork");
    if (pid == 0) {
        if (ptrace(PTRACE_TRACEME, 0, 0, 0) == -1) stop("ptrace");
        raise(SIGSTOP);
        execvp(command[0], command);
        stop(command[0]);
    }
    return follow(pid, &plan);
}
