// Whole files, for the programs of this folder.
#ifndef FILES_H
#define FILES_H

#include <stddef.h>
#include <stdint.h>

// The bytes of a file, to be freed; NULL if it cannot be read. An empty file gives a pointer too.
uint8_t *read_file(const char *path, size_t *len);

// FOLDER/NAME, to be freed.
char *path_in(const char *folder, const char *name);

// malloc, or an end of the program with status 2.
void *need(size_t bytes);

#endif
