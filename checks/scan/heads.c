/* Reads the heads of all files below a folder whose names end in .wav: 4,096 bytes of each, and the sizes of the chunks in them.
 * Prints how many files have a format and data. The daemon's scan is compared with this. */
#define _GNU_SOURCE
#include <dirent.h>
#include <fcntl.h>
#include <stdint.h>
#include <stdio.h>
#include <string.h>
#include <sys/stat.h>
#include <unistd.h>

static long files;

static uint32_t number(const unsigned char *at) {
    return at[0] | at[1] << 8 | at[2] << 16 | (uint32_t)at[3] << 24;
}

static void head(const char *path) {
    unsigned char bytes[4096];
    int file = open(path, O_RDONLY | O_CLOEXEC);
    if (file < 0)
        return;
    ssize_t got = read(file, bytes, sizeof bytes);
    close(file);
    if (got < 12 || memcmp(bytes, "RIFF", 4) || memcmp(bytes + 8, "WAVE", 4))
        return;
    int format = 0;
    for (int64_t at = 12; at + 8 <= got; at += 8 + ((int64_t)number(bytes + at + 4) + 1) / 2 * 2) {
        format |= !memcmp(bytes + at, "fmt ", 4);
        if (format && !memcmp(bytes + at, "data", 4)) {
            files++;
            return;
        }
    }
}

static void folder(const char *path) {
    char below[4096];
    DIR *names = opendir(path);
    if (!names)
        return;
    for (struct dirent *name; (name = readdir(names));) {
        if (!strcmp(name->d_name, ".") || !strcmp(name->d_name, ".."))
            continue;
        struct stat what;
        snprintf(below, sizeof below, "%s/%s", path, name->d_name);
        if (stat(below, &what))
            continue;
        size_t len = strlen(name->d_name);
        if (S_ISDIR(what.st_mode))
            folder(below);
        else if (S_ISREG(what.st_mode) && len >= 4 && !strcasecmp(name->d_name + len - 4, ".wav"))
            head(below);
    }
    closedir(names);
}

int main(int count, char **words) {
    folder(count > 1 ? words[1] : ".");
    printf("%ld\n", files);
    return 0;
}
