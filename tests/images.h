/* The images of request lines, as host/drive.c takes them. */
#ifndef IMAGES_H
#define IMAGES_H

#include <stdbool.h>
#include <stddef.h>
#include <stdint.h>

/*
 * Puts the image of a check, compile or load request into `image`, in words or in bytes; `length` becomes its length.
 * False where the line is no such request or the image has more than `room` bytes.
 */
bool image_of_line(const char *text, size_t text_length, uint8_t *image, size_t room, size_t *length);

#endif
