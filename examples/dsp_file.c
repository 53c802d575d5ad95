/*
 * dsp_file IMAGE FILE: writes the clip of an image as a .dsp file, as studios exchange them. Then it imports the file at the image's own block size and
 * compares the two images byte by byte. Exit status 1 where they differ.
 */
#include "doilycairn.h"
#include "support.h"
#include <stdio.h>
#include <stdlib.h>
#include <string.h>

/* The .dsp file of an image: the count of samples tells how many bytes it has. */
static uint8_t *exported(const uint8_t *image, size_t image_len, uint32_t total, size_t *file_len) {
    *file_len = doilycairn_dsp_size(total);
    uint8_t *file = allocate(*file_len, 1);
    doilycairn_written written = doilycairn_export_dsp(image, image_len, file, *file_len);
    check_reading("export", written.code, written.entry);
    return file;
}

/* The image of a .dsp file in blocks of this size: how many bytes it has is asked first. */
static uint8_t *imported(const uint8_t *file, size_t file_len, uint32_t block_size, size_t *image_len) {
    doilycairn_written needed = doilycairn_dsp_image_size(file, file_len, block_size);
    check("image size", needed.code);
    *image_len = needed.bytes;
    uint8_t *image = allocate(*image_len, 1);
    check("import", doilycairn_import_dsp(file, file_len, block_size, image, *image_len).code);
    return image;
}

int main(int argc, char **argv) {
    if (argc != 3) {
        fprintf(stderr, "usage: %s IMAGE FILE\n", argv[0]);
        return 2;
    }
    size_t image_len, file_len, back_len;
    uint8_t *image = read_file(argv[1], &image_len);
    doilycairn_opening opened = doilycairn_open(image, image_len);
    check_reading("open", opened.code, opened.entry);
    uint8_t *file = exported(image, image_len, opened.head.total, &file_len);
    write_file(argv[2], file, file_len);

    uint8_t *back = imported(file, file_len, opened.head.block, &back_len);
    int same = back_len <= image_len && memcmp(back, image, back_len) == 0;
    printf("%u samples in a file of %zu bytes; ", (unsigned)opened.head.total, file_len);
    printf("the image of %zu bytes %s\n", back_len, same ? "comes back byte for byte" : "comes back another one");
    free(back);
    free(file);
    free(image);
    return same ? 0 : 1;
}
