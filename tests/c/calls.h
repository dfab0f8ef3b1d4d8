/* What the files of this test share: printing, and the volumes of calls.c. */
#ifndef CALLS_H
#define CALLS_H

#include "hdrfs.h"

#include <inttypes.h>
#include <stdio.h>
#include <string.h>

#define TOP UINT64_MAX

/* The most bytes that a volume may have, and that can be digested. */
enum { LIMIT = 16777216 };

/* A volume 0 and a volume 1, and their lengths as lookups take them. */
extern const uint8_t V[104], ALL[659], LENGTHS[16];

/* Prints numbers of 8 bytes each behind the text of a call. */
void show(const char *call, const void *numbers, size_t size);

/* One call, its text and its numbers. */
#define SHOW(type, call)                                                                                    \
    do {                                                                                                    \
        type answer = call;                                                                                 \
        show(#call, &answer, sizeof answer);                                                                \
    } while (0)

/* Where an append writes: the buffer and the bookmark in it, as a file has them under these names. */
#define AT_MARK buf, sizeof buf, mark.next, mark.due, mark.timed, mark.last, mark.number

/* A text without its last byte, which is 0, as a slice. */
#define TEXT(text) (const uint8_t *)(text), sizeof(text) - 1

/* Reads and writes texts that are not UTF-8. */
void try_texts(void);

/* Takes digests, and compares pairs of volumes. */
void try_digests(void);

/* Repairs volumes that were cut short, and others that are at fault. */
void try_repair(void);

/* Lists trees below folders. */
void try_tree(void);

#endif
