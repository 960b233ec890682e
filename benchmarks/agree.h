#ifndef AGREE_H
#define AGREE_H

/* Runs library and plain C on many small sounds and files, whole blocks and short ones, and compares what
 * they give. Answers 0 if they agree, else 1, and prints the first difference. */
int agree(void);

#endif
