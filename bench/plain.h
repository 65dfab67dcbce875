/* Read in plain C, to measure the library against. */
#ifndef PLAIN_H
#define PLAIN_H

#include <stddef.h>
#include <stdint.h>

/* The answers and table words of teleport_read. */
void plain_read(const uint8_t *text, size_t text_len, uint32_t *table, size_t table_len, uint32_t answer[4]);

#endif
