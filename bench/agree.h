/* Holds plain C to the library on random texts. */
#ifndef AGREE_H
#define AGREE_H

/* Prints how many agreed; the status is that of a program. */
int agree(unsigned long count);

#endif
