/* Gives the packets of a file to libzvbi's teletext decoder, 24 slots in a frame, and prints how many pages it has reported.
 *
 * usage: vbi FILE SLOTS
 *
 * SLOTS are taken round the file. A slot of 42 zero bytes is a line without teletext. */
#include <libzvbi.h>
#include <stdio.h>
#include <stdlib.h>
#include <string.h>

enum { PACKET = 42, LINES = 24, LONGEST = 65536 };

static unsigned char packets[LONGEST][PACKET];

static void count_page(vbi_event *event, void *pages) {
    (void)event;
    ++*(long *)pages;
}

/* The lines of the frame that begins at a slot; returns how many of them have a packet. */
static int fill_frame(vbi_sliced *frame, size_t first, size_t end, size_t length) {
    static const unsigned char empty[PACKET];
    int filled = 0;
    for (size_t slot = first; slot < end; slot++) {
        const unsigned char *packet = packets[slot % length];
        if (memcmp(packet, empty, PACKET) == 0) continue;
        frame[filled].id = VBI_SLICED_TELETEXT_B;
        frame[filled].line = 7 + slot - first;
        memcpy(frame[filled].data, packet, PACKET);
        filled++;
    }
    return filled;
}

int main(int count, char **words) {
    long pages = 0;
    FILE *file = count == 3 ? fopen(words[1], "rb") : NULL;
    size_t length = file ? fread(packets, PACKET, LONGEST, file) : 0;
    vbi_decoder *decoder = vbi_decoder_new();
    if (length == 0 || !decoder) return 1;
    vbi_event_handler_add(decoder, VBI_EVENT_TTX_PAGE, count_page, &pages);
    size_t slots = strtoul(words[2], NULL, 10);
    double time = 0;
    for (size_t first = 0; first < slots; first += LINES) {
        vbi_sliced frame[LINES];
        size_t end = first + LINES < slots ? first + LINES : slots;
        vbi_decode(decoder, frame, fill_frame(frame, first, end, length), time);
        time += 1 / 25.0;
    }
    printf("%ld pages\n", pages);
    vbi_decoder_delete(decoder);
    return 0;
}
