/* A shared object that the archive is linked into: the library is position independent. */
#include <dvs.h>

uint32_t in_a_shared_object(uint8_t *book);

uint32_t in_a_shared_object(uint8_t *book) {
  return dvs_start(book, DVS_BOOK_SIZE, 2, 3, 0) == DVS_ACCEPTED && dvs_check(book, DVS_BOOK_SIZE) == DVS_ACCEPTED ? dvs_version() : 0;
}
