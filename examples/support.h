/* What the examples share: messages of refusals, and files. */
#ifndef SUPPORT_H
#define SUPPORT_H

#include <stddef.h>
#include <stdint.h>
#include <stdio.h>

/* Writes what a code says, in words, after the block that it names if it speaks of one. */
void write_message(FILE *out, uint32_t code, uint32_t entry);

/* Ends the program with exit status 2 and the refusal's message, unless the call, one that reads no image, was accepted. */
void check(const char *call, uint32_t code);

/* The same for a call that reads an image, whose answer may name a block. */
void check_reading(const char *call, uint32_t code, uint32_t entry);

/* Ends the program with exit status 2 and what went wrong with a file. */
void fail(const char *path);

/* Memory for `count` elements, never NULL, not even for none. */
void *allocate(size_t count, size_t size);

/* The whole of a file, and its length. */
uint8_t *read_file(const char *path, size_t *len);

/* Writes a whole file. */
void write_file(const char *path, const void *bytes, size_t len);

#endif
