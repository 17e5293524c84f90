#include "file.h"

#include <stdio.h>

int read_file(const char *path, uint8_t *octets, size_t room, size_t *length)
{
    FILE *file = fopen(path, "rb");
    int broken;
    if (file == NULL) {
        return 0;
    }
    *length = fread(octets, 1, room, file);
    broken = ferror(file);
    fclose(file);
    return !broken;
}
