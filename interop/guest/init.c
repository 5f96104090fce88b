/*
 * The first program of the guest: loads the modules, mounts what the machine outside shares, and runs the
 * program that its arguments name. When that ends, the guest ends. systemd takes its place.
 */
#define _GNU_SOURCE
#include <fcntl.h>
#include <stdio.h>
#include <stdlib.h>
#include <string.h>
#include <sys/mount.h>
#include <sys/reboot.h>
#include <sys/stat.h>
#include <sys/syscall.h>
#include <sys/wait.h>
#include <unistd.h>

/* A list of the modules, in an order in which they can be loaded. */
#define MODULES "/modules/order"
#define SHARED "trans=virtio,version=9p2000.L,cache=loose,msize=262144"

static void mount_at(const char *what, const char *path, const char *kind, unsigned long flags, const char *data)
{
    mkdir(path, 0755);
    if (mount(what, path, kind, flags, data) < 0)
        perror(path);
}

static void load(const char *path)
{
    int module = open(path, O_RDONLY | O_CLOEXEC);

    if (module < 0 || syscall(SYS_finit_module, module, "", 0) < 0)
        perror(path);
    close(module);
}

static void load_all(void)
{
    FILE *list = fopen(MODULES, "re");
    char path[256];

    while (list != NULL && fgets(path, sizeof path, list) != NULL) {
        path[strcspn(path, "\n")] = '\0';
        load(path);
    }
}

/* Makes the second serial line the standard output. */
static void open_line(void)
{
    int line = open("/dev/ttyS1", O_WRONLY | O_NOCTTY);
    int nothing = open("/dev/null", O_RDONLY);

    dup2(nothing, STDIN_FILENO);
    dup2(line, STDOUT_FILENO);
    dup2(line, STDERR_FILENO);
}

int main(int argc, char **argv)
{
    pid_t program;

    mount_at("dev", "/dev", "devtmpfs", 0, NULL);
    mount_at("proc", "/proc", "proc", 0, NULL);
    mount_at("sys", "/sys", "sysfs", 0, NULL);
    mount_at("pts", "/dev/pts", "devpts", 0, "ptmxmode=0666");
    mount_at("run", "/run", "tmpfs", 0, NULL);
    mount_at("tmp", "/tmp", "tmpfs", 0, NULL);
    load_all();
    mount_at("usr", "/usr", "9p", MS_RDONLY, SHARED);
    mount_at("project", "/project", "9p", MS_RDONLY, SHARED);
    mount_at("work", "/work", "9p", MS_RDONLY, SHARED);
    setenv("PATH", "/usr/bin:/usr/sbin", 1);
    if (argc > 1 && strstr(argv[1], "/systemd") != NULL)
        execv(argv[1], argv + 1);
    program = argc > 1 ? fork() : -1;
    if (program == 0) {
        open_line();
        execv(argv[1], argv + 1);
        perror(argv[1]);
        _exit(127);
    }
    while (program > 0 && wait(NULL) != program)
        ;
    sync();
    reboot(RB_AUTOBOOT);
    return 1;
}
