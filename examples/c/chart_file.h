/* Reads a chart file for the examples. In C and in C++ alike. */
#ifndef CHART_FILE_H
#define CHART_FILE_H

#include <stdint.h>
#include <stdio.h>
#include <stdlib.h>

/* Ends the program, and says why the file cannot be used. */
static inline void no_file(const char *path, const char *why) {
    fprintf(stderr, "%s: %s\n", path, why);
    exit(EXIT_FAILURE);
}

/* Fills `file` with the chart file of that name in the folder, which must have just so many bytes. */
static inline void read_chart(const char *folder, const char *name, uint8_t *file, size_t length) {
    char path[4096];
    int written = snprintf(path, sizeof path, "%s/%s", folder, name);
    if (written < 0 || (size_t)written >= sizeof path)
        no_file(folder, "too long a name");
    FILE *stream = fopen(path, "rb");
    if (stream == NULL)
        no_file(path, "cannot be opened");
    size_t got = fread(file, 1, length, stream);
    int more = got == length ? getc(stream) : EOF;
    if (ferror(stream))
        no_file(path, "cannot be read");
    if (got != length || more != EOF)
        no_file(path, "has another length than expected");
    fclose(stream);
}

/* The folder that the program is called with. */
static inline const char *folder_of_charts(int argc, char **argv) {
    if (argc != 2) {
        fprintf(stderr, "usage: %s FOLDER    (FOLDER has the chart files, as charts/ of the repository)\n", argc > 0 ? argv[0] : "example");
        exit(EXIT_FAILURE);
    }
    return argv[1];
}

#endif
