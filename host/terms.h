/* What the parts of image words are called in a listing. */
#ifndef TERMS_H
#define TERMS_H

#include <stdint.h>

#define UNARY_OPERATORS 3
#define BINARY_OPERATORS 15

/* the top four bits of a word; "word of no kind" for 0 and 15 */
extern const char *const kind_names[16];

/* by the operator's number in the image */
extern const char *const unary_names[UNARY_OPERATORS];
extern const char *const binary_names[BINARY_OPERATORS];

/* label and sort of a type word's payload, 0 to 3 */
extern const char *const type_names[4];

/* label of an array, 0 or 1 */
extern const char *const label_names[2];

/* what a refusal of an image means; for numbers other than 1 to 13 "unknown" */
const char *refusal_name(uint32_t number);

#endif
