/*
 * Samblokur: plans as text, read by a proved reader.
 *
 * One call, in a library of its own (libsamblokur_text.a): it runs at the desk,
 * not in the cabinet. The notation, and the places of the refusals, are those
 * of docs/NOTATION.md.
 *
 * Lent memory is as samblokur.h says: every pointer is non-null, also of a text
 * or an image of length 0, and image and report overlap nothing else. Nothing
 * is required of the text's contents. A call is to have 256 KB of stack, which
 * the texts that ask most of it are tried with.
 */
#ifndef SAMBLOKUR_TEXT_H
#define SAMBLOKUR_TEXT_H

#include <stddef.h>
#include <stdint.h>

#ifdef __cplusplus
extern "C" {
#endif

/* Refusal numbers of a text, in the order in which they are tested: 40, 41, 42,
 * 3, 43, then 9 to 11 as samblokur.h has them. */
enum samblokur_text_refusal {
  SAMBLOKUR_TEXT = 40,       /* not of the notation. place: the length of the
                                longest prefix that some text begins with */
  SAMBLOKUR_LEVEL = 41,      /* place: the first node past level 16 */
  SAMBLOKUR_NAME = 42,       /* place: the first name that is undeclared, or
                                declared a second time */
  SAMBLOKUR_IMAGE_ROOM = 43  /* the image is longer than the room lent */
};

/* Room that is enough for every image. */
enum { SAMBLOKUR_IMAGE_MOST = 41108 };

/* The places of the report, three 64-bit numbers. */
enum samblokur_text_place {
  SAMBLOKUR_READ_NUMBER = 0, /* the refusal, 0 where the text is accepted */
  SAMBLOKUR_READ_PLACE = 1,  /* 40 to 42: bytes into the text; 9 to 11: the
                                record; else 0 */
  SAMBLOKUR_READ_LENGTH = 2, /* of the image; 0 on every refusal */
  SAMBLOKUR_READ_PLACES = 3
};

/* Reads a text into an image. Returns the refusal number, 0 where the text is
 * accepted, and fills every place of the report. Nothing is written into the
 * image on a refusal, nor ever beyond the image's length. */
uint32_t samblokur_read(const uint8_t *text, size_t text_len, uint8_t *image,
                        size_t image_len,
                        uint64_t report[SAMBLOKUR_READ_PLACES]);

#ifdef __cplusplus
}
#endif

#endif
