/* Runs a program whose calls on the files that it saves fail, are cut short, or are its last.
 *
 * usage: failing REPORT FOLDER KIND NUMBER ERRNO PROGRAM [WORD ..]
 *
 * It counts the calls by which a file FILE.new is removed, created, written, synced and renamed, and
 * those by which FOLDER is opened and synced. Each goes to REPORT as a line. KIND is what happens at
 * the call of that NUMBER:
 *
 *   none    nothing           before  the program is killed before it
 *   once    it fails          after   the program is killed after it
 *   from    it and all later ones fail
 *   short   it writes half of what it was to write
 *
 * The system stops the program only at the calls of COUNTED (seccomp), since each stop takes longer than most
 * calls. SIGTERM kills the program. Only for Linux on x86-64. The status is 70 if ptrace or seccomp is not
 * permitted. */
#define _GNU_SOURCE
#include <errno.h>
#include <fcntl.h>
#include <limits.h>
#include <linux/audit.h>
#include <linux/filter.h>
#include <linux/seccomp.h>
#include <signal.h>
#include <stddef.h>
#include <stdint.h>
#include <stdio.h>
#include <stdlib.h>
#include <string.h>
#include <sys/prctl.h>
#include <sys/ptrace.h>
#include <sys/syscall.h>
#include <sys/uio.h>
#include <sys/user.h>
#include <sys/wait.h>
#include <unistd.h>

enum { FILES = 1024, PAGE = 4096 };
enum what { NOTHING, FILE_NEW, THE_FOLDER };

/* The calls that may count, and the one that ends what an open file is. */
static const int COUNTED[] = {
    SYS_open,   SYS_openat,   SYS_write,     SYS_pwrite64, SYS_writev,   SYS_fchmod, SYS_fsync, SYS_fdatasync,
    SYS_rename, SYS_renameat, SYS_renameat2, SYS_unlink,   SYS_unlinkat, SYS_close,
};
enum { CALLS = sizeof COUNTED / sizeof *COUNTED };

static pid_t child;
static const char *folder;
static enum what opened[FILES];

static void stop(int signal_number) {
    (void)signal_number;
    kill(child, SIGKILL);
}

/* Copies the path at an address of the program. No read goes past the end of a page, since the next may be none. */
static void read_path(unsigned long address, char path[PATH_MAX]) {
    size_t at = 0;
    while (at < PATH_MAX - 1) {
        size_t left = PAGE - (address + at) % PAGE, size = left < PATH_MAX - 1 - at ? left : PATH_MAX - 1 - at;
        struct iovec here = {path + at, size}, there = {(void *)(address + at), size};
        if (process_vm_readv(child, &here, 1, &there, 1, 0) != (ssize_t)size) {
            at = 0;
            break;
        }
        if (memchr(path + at, 0, size) != NULL) {
            return;
        }
        at += size;
    }
    path[at] = 0;
}

static int is_new(unsigned long address) {
    char path[PATH_MAX];
    read_path(address, path);
    size_t length = strlen(path);
    return length > 4 && strcmp(path + length - 4, ".new") == 0;
}

static enum what of_file(unsigned long file) {
    return file < FILES ? opened[file] : NOTHING;
}

static const char *name_of_open(unsigned long path, unsigned long flags) {
    char found[PATH_MAX];
    read_path(path, found);
    if (flags & O_CREAT) {
        return is_new(path) ? "open" : NULL;
    }
    return strcmp(found, folder) == 0 ? "open-folder" : NULL;
}

/* The name of a call that counts. */
static const char *name_of(const struct __ptrace_syscall_info *call) {
    const uint64_t *words = call->seccomp.args;
    switch (call->seccomp.nr) {
    case SYS_open: return name_of_open(words[0], words[1]);
    case SYS_openat: return name_of_open(words[1], words[2]);
    case SYS_write: case SYS_pwrite64: case SYS_writev: return of_file(words[0]) == FILE_NEW ? "write" : NULL;
    case SYS_fchmod: return of_file(words[0]) == FILE_NEW ? "chmod" : NULL;
    case SYS_fsync: case SYS_fdatasync:
        return of_file(words[0]) == FILE_NEW ? "sync" : of_file(words[0]) == THE_FOLDER ? "sync-folder" : NULL;
    case SYS_rename: return is_new(words[0]) ? "rename" : NULL;
    case SYS_renameat: case SYS_renameat2: return is_new(words[1]) ? "rename" : NULL;
    case SYS_unlink: return is_new(words[0]) ? "unlink" : NULL;
    case SYS_unlinkat: return is_new(words[1]) ? "unlink" : NULL;
    default: return NULL;
    }
}

/* Has the system stop this process, and the program that it becomes, at the calls of COUNTED. */
static int filter_calls(void) {
    struct sock_filter steps[2 * CALLS + 5] = {
        BPF_STMT(BPF_LD | BPF_W | BPF_ABS, offsetof(struct seccomp_data, arch)),
        BPF_JUMP(BPF_JMP | BPF_JEQ | BPF_K, AUDIT_ARCH_X86_64, 1, 0),
        BPF_STMT(BPF_RET | BPF_K, SECCOMP_RET_KILL_PROCESS),
        BPF_STMT(BPF_LD | BPF_W | BPF_ABS, offsetof(struct seccomp_data, nr)),
    };
    struct sock_fprog filter = {4, steps};
    for (size_t at = 0; at < CALLS; at++) {
        struct sock_filter other = BPF_JUMP(BPF_JMP | BPF_JEQ | BPF_K, (unsigned)COUNTED[at], 0, 1);
        struct sock_filter stops = BPF_STMT(BPF_RET | BPF_K, SECCOMP_RET_TRACE);
        steps[filter.len++] = other;
        steps[filter.len++] = stops;
    }
    struct sock_filter goes_on = BPF_STMT(BPF_RET | BPF_K, SECCOMP_RET_ALLOW);
    steps[filter.len++] = goes_on;
    return prctl(PR_SET_NO_NEW_PRIVS, 1, 0, 0, 0) == 0 && prctl(PR_SET_SECCOMP, SECCOMP_MODE_FILTER, &filter) == 0;
}

static void begin(char **words) {
    ptrace(PTRACE_TRACEME, 0, 0, 0);
    raise(SIGSTOP);
    if (!filter_calls()) {
        _exit(70);
    }
    execv(words[0], words);
    perror(words[0]);
    _exit(71);
}

/* Runs the program up to where it enters a call of COUNTED, or leaves the one where it is: its status once it is
 * over, or -1. */
static int next_stop(int is_in_call) {
    int status, passed_on = 0;
    for (;;) {
        if (ptrace(is_in_call ? PTRACE_SYSCALL : PTRACE_CONT, child, 0, passed_on) != 0 && errno != ESRCH) {
            return 70;
        }
        while (waitpid(child, &status, 0) < 0 && errno == EINTR) {
        }
        if (WIFEXITED(status)) {
            return WEXITSTATUS(status);
        }
        if (WIFSIGNALED(status)) {
            return 128 + WTERMSIG(status);
        }
        if (WSTOPSIG(status) == (SIGTRAP | 0x80) || status >> 8 == (SIGTRAP | PTRACE_EVENT_SECCOMP << 8)) {
            return -1;
        }
        passed_on = WSTOPSIG(status) == SIGTRAP ? 0 : WSTOPSIG(status);
    }
}

static void set(size_t offset, long value) {
    ptrace(PTRACE_POKEUSER, child, (void *)offset, (void *)value);
}

int main(int count, char **words) {
    if (count < 7) {
        fputs("usage: failing REPORT FOLDER KIND NUMBER ERRNO PROGRAM [WORD ..]\n", stderr);
        return 64;
    }
    FILE *report = fopen(words[1], "w");
    folder = words[2];
    const char *kind = words[3], *name = NULL;
    long chosen = atol(words[4]), fault = atol(words[5]), number = 0;
    child = fork();
    if (child == 0) {
        begin(words + 6);
    } else if (child < 0) {
        return 70;
    }
    signal(SIGTERM, stop);
    int status;
    if (report == NULL || waitpid(child, &status, 0) < 0 || !WIFSTOPPED(status) ||
        ptrace(PTRACE_SETOPTIONS, child, 0, PTRACE_O_TRACESYSGOOD | PTRACE_O_TRACESECCOMP | PTRACE_O_EXITKILL) != 0) {
        stop(0);
        return 70;
    }
    struct __ptrace_syscall_info entry = {0}, call;
    int is_failed = 0, is_last = 0;
    for (;;) {
        int over = next_stop(name != NULL);
        if (over >= 0) {
            return over;
        }
        if (ptrace(PTRACE_GET_SYSCALL_INFO, child, sizeof call, &call) <= 0) {
            continue;
        }
        if (call.op == PTRACE_SYSCALL_INFO_SECCOMP) {
            entry = call;
            is_failed = is_last = 0;
            name = name_of(&entry);
            if (entry.seccomp.nr == SYS_close && entry.seccomp.args[0] < FILES) {
                opened[entry.seccomp.args[0]] = NOTHING;
            }
            if (name == NULL) {
                continue;
            }
            number++;
            fprintf(report, "%s\n", name);
            fflush(report);
            int is_chosen = number == chosen;
            is_failed = (is_chosen && strcmp(kind, "once") == 0) || (number >= chosen && strcmp(kind, "from") == 0);
            is_last = is_chosen && strcmp(kind, "after") == 0;
            if (is_chosen && strcmp(kind, "before") == 0) {
                kill(child, SIGKILL);
            } else if (is_failed) {
                set(offsetof(struct user, regs.orig_rax), -1);
            } else if (is_chosen && strcmp(kind, "short") == 0 && strcmp(name, "write") == 0) {
                set(offsetof(struct user, regs.rdx), (long)(entry.seccomp.args[2] + 1) / 2);
            }
        } else if (call.op == PTRACE_SYSCALL_INFO_EXIT && name != NULL) {
            if (is_failed) {
                set(offsetof(struct user, regs.rax), -fault);
            } else if (strncmp(name, "open", 4) == 0 && call.exit.rval >= 0 && call.exit.rval < FILES) {
                opened[call.exit.rval] = strcmp(name, "open") == 0 ? FILE_NEW : THE_FOLDER;
            }
            if (is_last) {
                kill(child, SIGKILL);
            }
            name = NULL;
        }
    }
}
