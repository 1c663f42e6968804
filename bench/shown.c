/* Gives packets of a file to a new teletext decoder of libzvbi, and prints what it then shows of some pages.
 *
 * usage: shown FILE START COUNT MPP/SSSS..
 *        shown FILE START COUNT MPP
 *
 * COUNT slots are taken from slot START on, round the file. A slot of 42 zero bytes is a line without teletext. For each page
 * the output has rows 1 to 24, one line each, or one line `-` if the decoder has not stored the page. There are 24 slots in a frame.
 * For a number without subcode each slot is a frame. The number is read after the first slot, and whenever the decoder reports that it has
 * stored a page of it: at the end of a block. In between, from the header of a subpage on, libzvbi gives the copy that it has kept of this
 * subpage, unless C4 is set. The output has these lines each time that they change, after a line with the count of slots before this one. */
#include <libzvbi.h>
#include <stdio.h>
#include <stdlib.h>
#include <string.h>

enum { PACKET = 42, LINES = 24, LONGEST = 65536 };

static unsigned char packets[LONGEST][PACKET];

/* The lines of the frame that begins at a slot; returns how many of them have a packet. */
static int fill_frame(vbi_sliced *frame, size_t first, size_t end, size_t length) {
    static const unsigned char empty[PACKET];
    int filled = 0;
    for (size_t slot = first; slot < end; slot++) {
        const unsigned char *packet = packets[slot % length];
        if (memcmp(packet, empty, PACKET) == 0) continue;
        frame[filled].id = VBI_SLICED_TELETEXT_B;
        frame[filled].line = 7 + slot - first;
        memcpy(frame[filled].data, packet, PACKET);
        filled++;
    }
    return filled;
}

/* What the decoder has stored of a page number. */
struct stored {
    vbi_pgno number;
    int is_new;
};

static void note(vbi_event *event, void *data) {
    struct stored *stored = data;
    if (event->ev.ttx_page.pgno == stored->number) stored->is_new = 1;
}

/* The rows that the decoder shows of a page, or `-`. */
static void read_page(vbi_decoder *decoder, unsigned number, unsigned sub, char *text) {
    vbi_page page;
    if (!vbi_fetch_vt_page(decoder, &page, number, sub, VBI_WST_LEVEL_1, 25, FALSE)) {
        strcpy(text, "-\n");
        return;
    }
    for (int row = 1; row < 25; row++) {
        for (int column = 0; column < 40; column++) {
            unsigned code = page.text[row * page.columns + column].unicode;
            *text++ = code >= 32 && code < 127 ? (char)code : '?';
        }
        *text++ = '\n';
    }
    *text = 0;
    vbi_unref_page(&page);
}

/* Decodes the slots of a frame, of which there are so many. */
static void decode(vbi_decoder *decoder, size_t first, size_t slots, size_t end, size_t length) {
    static double time = 0;
    vbi_sliced frame[LINES];
    vbi_decode(decoder, frame, fill_frame(frame, first, first + slots < end ? first + slots : end, length), time);
    time += 1 / 25.0;
}

/* Follows a number without subcode: reads it whenever the decoder has stored one of its pages. */
static void follow(vbi_decoder *decoder, struct stored *stored, size_t start, size_t end, size_t length) {
    static char text[LONGEST], before[LONGEST];
    for (size_t slot = start; slot < end; slot++) {
        decode(decoder, slot, 1, end, length);
        if (slot > start && !stored->is_new) continue;
        stored->is_new = 0;
        read_page(decoder, stored->number, VBI_ANY_SUBNO, text);
        if (strcmp(text, before) == 0) continue;
        printf("%zu\n%s", slot - start, text);
        strcpy(before, text);
    }
}

int main(int count, char **words) {
    FILE *file = count > 4 ? fopen(words[1], "rb") : NULL;
    size_t length = file ? fread(packets, PACKET, LONGEST, file) : 0;
    vbi_decoder *decoder = vbi_decoder_new();
    if (length == 0 || !decoder) return 1;
    struct stored stored = {0, 0};
    vbi_event_handler_add(decoder, VBI_EVENT_TTX_PAGE, note, &stored);
    size_t start = strtoul(words[2], NULL, 10), end = start + strtoul(words[3], NULL, 10);
    unsigned number, sub;
    if (sscanf(words[4], "%3x/%4x", &number, &sub) == 1) {
        stored.number = number;
        follow(decoder, &stored, start, end, length);
    } else {
        for (size_t first = start; first < end; first += LINES) decode(decoder, first, LINES, end, length);
        for (int word = 4; word < count; word++) {
            static char text[LONGEST];
            if (sscanf(words[word], "%3x/%4x", &number, &sub) != 2) return 1;
            read_page(decoder, number, sub, text);
            fputs(text, stdout);
        }
    }
    vbi_decoder_delete(decoder);
    return 0;
}
