/* The allocation book's check of a roll's image, for the margin system. */
#ifndef ALLOCATION_BOOK_H
#define ALLOCATION_BOOK_H

#include <stddef.h>
#include <stdint.h>

/*
 * Tells what opening a book from these bytes would answer: 0 if it would open, else 10,000 x the refusal's number + its
 * place. The place is a byte of the image for refusals of the image and the roll layer, and a record's number in its table
 * for those of the book layer (15, 16 and 17). The bytes are only read; `image` may be any pointer where `length` is 0, so
 * long as it is not null.
 */
uint32_t allocation_book_check(const uint8_t *image, size_t length);

#endif
