/*
 * A C program for the desk: it reads a plan's text from one file and writes the
 * image into another. It ends with the refusal's number.
 *
 *   cc -std=c11 -Wall -Wextra -pedantic -I../include read.c \
 *      ../../target/staticlib/libsamblokur_text.a -o read
 *   ./read ../examples/texts/sheets.plx sheets.plan
 */
#include "samblokur_text.h"

#include <stdio.h>

enum { TEXT_ROOM = 1 << 20, MISTAKE = 64 };

static uint8_t text[TEXT_ROOM];
static uint8_t image[SAMBLOKUR_IMAGE_MOST];
static uint64_t report[SAMBLOKUR_READ_PLACES];

/* Whether the whole file was read; its length. */
static int read_file(const char *path, size_t *length) {
  FILE *file = fopen(path, "rb");
  if (file == NULL) return 0;
  *length = fread(text, 1, sizeof text, file);
  int is_whole = feof(file) && !ferror(file);
  fclose(file);
  return is_whole;
}

static int write_file(const char *path, size_t length) {
  FILE *file = fopen(path, "wb");
  if (file == NULL) return 0;
  int is_written = fwrite(image, 1, length, file) == length;
  return fclose(file) == 0 && is_written;
}

int main(int count, char **arguments) {
  size_t length = 0;
  if (count != 3 || !read_file(arguments[1], &length)) {
    fprintf(stderr, "usage: read TEXT IMAGE, with a text of less than 1 MiB\n");
    return MISTAKE;
  }
  uint32_t number = samblokur_read(text, length, image, sizeof image, report);
  if (number != 0) {
    printf("refused with %u at %llu\n", (unsigned)number, (unsigned long long)report[SAMBLOKUR_READ_PLACE]);
    return (int)number;
  }
  if (!write_file(arguments[2], (size_t)report[SAMBLOKUR_READ_LENGTH])) return MISTAKE;
  printf("%llu bytes\n", (unsigned long long)report[SAMBLOKUR_READ_LENGTH]);
  return 0;
}
