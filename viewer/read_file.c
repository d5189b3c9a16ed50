/* Reading a file. */
#include "viewer.h"

#include <stdio.h>

int read_file(const char *path, uint8_t *bytes, size_t most, size_t *length) {
    FILE *file = fopen(path, "rb");
    if (file == NULL) return 0;
    *length = fread(bytes, 1, most, file);
    int fine = !ferror(file);
    fclose(file);
    return fine;
}
