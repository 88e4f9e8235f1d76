/* Does the lines of a benchmark's script by system calls in the folder that is its working directory, and prints the
 * answers as lfsd does, as far as a system tells them. Each path is one of that folder. `as` changes the user and the groups by
 * which the kernel judges files. It keeps no journal. Run as the superuser, in a folder on a tmpfs; beside.py makes one. */
#define _GNU_SOURCE
#include <dirent.h>
#include <errno.h>
#include <fcntl.h>
#include <grp.h>
#include <stdio.h>
#include <stdlib.h>
#include <string.h>
#include <sys/fsuid.h>
#include <sys/stat.h>
#include <unistd.h>

enum { TRANSFER = 4096, GROUPS = 16, NAMES = 4096, WORDS = 6 };

static char *words[WORDS];

static void end(const char *what)
{
    fprintf(stderr, "calls: %s\n", what);
    exit(1);
}

static void split(char *line)
{
    int at = 0;
    memset(words, 0, sizeof words);
    for (char *word = strtok(line, " "); word && at < WORDS; word = strtok(NULL, " "))
        words[at++] = word;
}

/* A path of the script, in the working directory. */
static const char *place(const char *path)
{
    return path[1] ? path + 1 : ".";
}

static void tell_done(int result)
{
    if (result >= 0)
        puts("0 ok");
    else
        printf("0 denied %s\n", strerrorname_np(errno));
}

static void become(char *user, char *groups)
{
    gid_t found[GROUPS];
    int count = 0;
    for (char *group = strtok(groups, ","); group && count < GROUPS; group = strtok(NULL, ","))
        found[count++] = (gid_t)strtoul(group, NULL, 10);
    setfsuid(0);
    if (setgroups(count, found))
        end("setgroups");
    setfsgid(found[0]);
    setfsuid((uid_t)strtoul(user, NULL, 10));
}

static void tell_stat(const char *path)
{
    struct stat at;
    if (lstat(place(path), &at)) {
        tell_done(-1);
        return;
    }
    printf("0 stat %lu %s %u %u %04o 00000000 %ld\n", (unsigned long)at.st_ino, S_ISDIR(at.st_mode) ? "dir" : "file", at.st_uid,
           at.st_gid, at.st_mode & 07777, S_ISDIR(at.st_mode) ? 0L : (long)at.st_size);
}

static void read_file(const char *path, off_t off, size_t len)
{
    static const char digit[] = "0123456789abcdef";
    unsigned char bytes[TRANSFER];
    char text[2 * TRANSFER];
    int file = open(place(path), O_RDONLY);
    ssize_t count = file < 0 ? -1 : pread(file, bytes, len < TRANSFER ? len : TRANSFER, off);
    if (count < 0) {
        tell_done(-1);
        return;
    }
    close(file);
    for (ssize_t at = 0; at < count; at++) {
        text[2 * at] = digit[bytes[at] >> 4];
        text[2 * at + 1] = digit[bytes[at] & 15];
    }
    printf("0 bytes %.*s\n", count ? (int)(2 * count) : 1, count ? text : "-");
}

static int value(char digit)
{
    return digit <= '9' ? digit - '0' : digit - 'a' + 10;
}

static void write_file(const char *path, int at_end, off_t off, const char *hex)
{
    unsigned char bytes[TRANSFER];
    size_t count = 0;
    for (; hex[2 * count] && hex[2 * count] != '-' && count < TRANSFER; count++)
        bytes[count] = (unsigned char)(value(hex[2 * count]) << 4 | value(hex[2 * count + 1]));
    int file = open(place(path), at_end ? O_WRONLY | O_APPEND : O_WRONLY);
    ssize_t result = file < 0 ? -1 : at_end ? write(file, bytes, count) : pwrite(file, bytes, count, off);
    tell_done(result < 0 ? -1 : 0);
    if (file >= 0)
        close(file);
}

static int in_order(const void *one, const void *other)
{
    return strcmp(*(char *const *)one, *(char *const *)other);
}

static void list(const char *path)
{
    static char *names[NAMES];
    int count = 0;
    DIR *dir = opendir(place(path));
    if (!dir) {
        tell_done(-1);
        return;
    }
    for (struct dirent *entry; (entry = readdir(dir)) && count < NAMES;)
        if (strcmp(entry->d_name, ".") && strcmp(entry->d_name, ".."))
            names[count++] = strdup(entry->d_name);
    closedir(dir);
    qsort(names, (size_t)count, sizeof *names, in_order);
    fputs("0 names", stdout);
    for (int at = 0; at < count; at++) {
        printf(" %s", names[at]);
        free(names[at]);
    }
    putchar('\n');
}

static void create(const char *path, mode_t mode)
{
    int file = open(place(path), O_WRONLY | O_CREAT | O_EXCL, mode);
    tell_done(file);
    if (file >= 0)
        close(file);
}

static void run(void)
{
    const char *call = words[0];
    if (!strcmp(call, "as"))
        become(words[1], words[2]);
    else if (!strcmp(call, "stat"))
        tell_stat(words[1]);
    else if (!strcmp(call, "read"))
        read_file(words[1], strtol(words[2], NULL, 10), strtoul(words[3], NULL, 10));
    else if (!strcmp(call, "write") && !strcmp(words[2], "end"))
        write_file(words[1], 1, 0, words[3]);
    else if (!strcmp(call, "write"))
        write_file(words[1], 0, strtol(words[3], NULL, 10), words[4]);
    else if (!strcmp(call, "list"))
        list(words[1]);
    else if (!strcmp(call, "create"))
        create(words[1], (mode_t)strtoul(words[2], NULL, 8));
    else if (!strcmp(call, "mkdir"))
        tell_done(mkdir(place(words[1]), (mode_t)strtoul(words[2], NULL, 8)));
    else if (!strcmp(call, "unlink"))
        tell_done(unlink(place(words[1])));
    else if (!strcmp(call, "rename"))
        tell_done(rename(place(words[1]), place(words[2])));
    else if (!strcmp(call, "chown"))
        tell_done(lchown(place(words[1]), (uid_t)strtoul(words[2], NULL, 10), (gid_t)strtoul(words[3], NULL, 10)));
    else
        end(call);
}

int main(void)
{
    char *line = NULL;
    size_t room = 0;
    ssize_t length;
    umask(0);
    while ((length = getline(&line, &room, stdin)) > 0) {
        line[length - 1] = 0;
        if (!line[0] || line[0] == '#')
            continue;
        split(line);
        run();
    }
    free(line);
    return 0;
}
