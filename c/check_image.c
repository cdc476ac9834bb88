/* Checks the image in a file: prints what opening a book from it would answer. Status 0: it opens; 1: refused; 2: no image
 * could be read. */
#include "allocation_book.h"

#include <stdio.h>
#include <stdlib.h>

/* The longest image has 64 participants and 128 accounts. One byte more is enough to be refused for its length. */
enum { LONGEST = 7 + 21 * 64 + 24 * 128, ROOM = LONGEST + 1 };

/* The bytes of the file, as many as there is room for; 0 if it can be read. */
static int read_image(const char *path, uint8_t *image, size_t *length)
{
    FILE *file = fopen(path, "rb");
    if (file == NULL) {
        return 1;
    }
    *length = fread(image, 1, ROOM, file);
    int failed = ferror(file);
    fclose(file);
    return failed;
}

int main(int argc, char **argv)
{
    static uint8_t image[ROOM];
    size_t length = 0;
    if (argc != 2) {
        fprintf(stderr, "usage: check_image FILE\n");
        return 2;
    }
    if (read_image(argv[1], image, &length) != 0) {
        fprintf(stderr, "check_image: %s cannot be read\n", argv[1]);
        return 2;
    }
    uint32_t answer = allocation_book_check(image, length);
    if (answer == 0) {
        printf("check 0: the book opens\n");
        return 0;
    }
    printf("check %lu: refused %lu place %lu\n", (unsigned long)answer, (unsigned long)(answer / 10000), (unsigned long)(answer % 10000));
    return 1;
}
