/* libsndfile's way to do the same jobs, over files in memory. */
#ifndef WITH_SNDFILE_H
#define WITH_SNDFILE_H

#include <stdbool.h>
#include <stddef.h>
#include <stdint.h>

const char *sndfile_version(void);

/* Opens a file and closes it; answers its frames. */
size_t sndfile_read(const uint8_t *file, size_t file_bytes);

/* Decodes a whole file to 16-bit samples; answers the frames that were read, at most those asked for. */
size_t sndfile_decode(const uint8_t *file, size_t file_bytes, int16_t *out, size_t frames);

/* Writes a WAVE file of 16-bit PCM or of IMA; answers its bytes. */
size_t sndfile_write(bool ima, uint32_t channels, uint32_t rate, const int16_t *sound, size_t frames,
                     uint8_t *out, size_t room);

#endif
