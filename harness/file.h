/* A file's octets. */
#ifndef FILE_H
#define FILE_H

#include <stddef.h>
#include <stdint.h>

/* Fills the front of `octets` with at most `room` octets of a file, and *length with how many. 0 where there is no such file, or
 * it cannot be read. Who lends one octet more than may be accepted has a longer file refused for its length. */
int read_file(const char *path, uint8_t *octets, size_t room, size_t *length);

#endif
