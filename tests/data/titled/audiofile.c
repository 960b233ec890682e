/* Marks with names and comments, written and read by libaudiofile, whose programs do neither.
 *
 *   audiofile write FILE BITS CHANNELS FRAMES [PLACE NAME COMMENT]..   a WAVE file with marks 1, 2, ..
 *   audiofile read FILE                                                the place, name and comment of each mark
 *
 * A sound of 4 BITS is IMA. An empty NAME or COMMENT is not set. */
#include <audiofile.h>
#include <stdint.h>
#include <stdio.h>
#include <stdlib.h>
#include <string.h>

enum { MOST = 64 };

static void put(const char *name, char **words, int marks)
{
    int bits = atoi(words[0]), channels = atoi(words[1]), frames = atoi(words[2]), ids[MOST];
    AFfilesetup setup = afNewFileSetup();
    afInitFileFormat(setup, AF_FILE_WAVE);
    afInitChannels(setup, AF_DEFAULT_TRACK, channels);
    afInitRate(setup, AF_DEFAULT_TRACK, 8000);
    afInitSampleFormat(setup, AF_DEFAULT_TRACK, bits == 8 ? AF_SAMPFMT_UNSIGNED : AF_SAMPFMT_TWOSCOMP,
                       bits == 4 ? 16 : bits);
    if (bits == 4)
        afInitCompression(setup, AF_DEFAULT_TRACK, AF_COMPRESSION_IMA);
    for (int i = 0; i < marks; i++)
        ids[i] = i + 1;
    afInitMarkIDs(setup, AF_DEFAULT_TRACK, ids, marks);
    for (int i = 0; i < marks; i++) {
        const char *label = words[3 + 3 * i + 1], *note = words[3 + 3 * i + 2];
        if (*label)
            afInitMarkName(setup, AF_DEFAULT_TRACK, ids[i], label);
        if (*note)
            afInitMarkComment(setup, AF_DEFAULT_TRACK, ids[i], note);
    }
    AFfilehandle file = afOpenFile(name, "w", setup);
    for (int i = 0; i < marks; i++)
        afSetMarkPosition(file, AF_DEFAULT_TRACK, ids[i], atoi(words[3 + 3 * i]));
    /* A triangle of 50 frames, of its own height in each channel. */
    for (int frame = 0; frame < frames; frame++) {
        int16_t wide[2];
        uint8_t narrow[2];
        for (int channel = 0; channel < channels; channel++) {
            int height = (abs(frame % 50 - 25) - 12) * (channel + 1);
            wide[channel] = (int16_t)(height * 500);
            narrow[channel] = (uint8_t)(128 + height);
        }
        afWriteFrames(file, AF_DEFAULT_TRACK, bits == 8 ? (void *)narrow : (void *)wide, 1);
    }
    afCloseFile(file);
    afFreeFileSetup(setup);
}

static const char *or_nothing(const char *text)
{
    return text ? text : "";
}

static void get(const char *name)
{
    AFfilehandle file = afOpenFile(name, "r", AF_NULL_FILESETUP);
    if (!file)
        return;
    int ids[MOST], marks = afGetMarkIDs(file, AF_DEFAULT_TRACK, NULL);
    if (marks > MOST)
        exit(1);
    afGetMarkIDs(file, AF_DEFAULT_TRACK, ids);
    for (int i = 0; i < marks; i++) {
        printf("mark %d at %ld\n", ids[i], (long)afGetMarkPosition(file, AF_DEFAULT_TRACK, ids[i]));
        printf("name %s\n", or_nothing(afGetMarkName(file, AF_DEFAULT_TRACK, ids[i])));
        printf("comment %s\n", or_nothing(afGetMarkComment(file, AF_DEFAULT_TRACK, ids[i])));
    }
    afCloseFile(file);
}

int main(int count, char **words)
{
    if (count == 3 && strcmp(words[1], "read") == 0)
        get(words[2]);
    else if (count >= 6 && (count - 6) % 3 == 0 && (count - 6) / 3 <= MOST && strcmp(words[1], "write") == 0)
        put(words[2], words + 3, (count - 6) / 3);
    else
        return 1;
    return 0;
}
