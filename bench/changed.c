/* Gives packets of standard input to a teletext decoder of libzvbi, 24 slots in a frame, and prints which version of each page it comes to show.
 *
 * Each row from 1 to 23 of a page ends with its version, in six digits. At the end of a page, if it shows another version than before, a line has
 * the slots so far, the page number, and the version; or `mixed` in its place, if two rows have two versions. */
#include <libzvbi.h>
#include <stdio.h>
#include <stdlib.h>
#include <string.h>

enum { PACKET = 42, LINES = 24, ROWS = 24, NUMBERS = 0x1000, DIGITS = 6, MIXED = -1, NEVER = -2 };

struct watch {
    vbi_decoder *decoder;
    unsigned long slots;
    int shown[NUMBERS];
};

static int version_of_row(const vbi_page *page, int row) {
    int version = 0;
    for (int column = 40 - DIGITS; column < 40; column++) {
        unsigned code = page->text[row * page->columns + column].unicode;
        if (code < '0' || code > '9') return MIXED;
        version = 10 * version + (int)(code - '0');
    }
    return version;
}

static int version_of(const vbi_page *page) {
    int version = version_of_row(page, 1);
    for (int row = 2; row < ROWS; row++)
        if (version_of_row(page, row) != version) return MIXED;
    return version;
}

static void look(vbi_event *event, void *data) {
    struct watch *watch = data;
    int number = event->ev.ttx_page.pgno;
    vbi_page page;
    if (!vbi_fetch_vt_page(watch->decoder, &page, number, VBI_ANY_SUBNO, VBI_WST_LEVEL_1, 25, FALSE)) return;
    int version = version_of(&page);
    vbi_unref_page(&page);
    if (watch->shown[number % NUMBERS] == version) return;
    watch->shown[number % NUMBERS] = version;
    if (version == MIXED) printf("%lu %x mixed\n", watch->slots, number);
    else printf("%lu %x %d\n", watch->slots, number, version);
}

int main(void) {
    static struct watch watch;
    static unsigned char packets[LINES][PACKET];
    static const unsigned char empty[PACKET];
    watch.decoder = vbi_decoder_new();
    if (!watch.decoder) return 1;
    for (int number = 0; number < NUMBERS; number++) watch.shown[number] = NEVER;
    vbi_event_handler_add(watch.decoder, VBI_EVENT_TTX_PAGE, look, &watch);
    double time = 0;
    size_t count;
    while ((count = fread(packets, PACKET, LINES, stdin)) > 0) {
        vbi_sliced frame[LINES];
        int filled = 0;
        for (size_t line = 0; line < count; line++) {
            if (memcmp(packets[line], empty, PACKET) == 0) continue;
            frame[filled].id = VBI_SLICED_TELETEXT_B;
            frame[filled].line = 7 + line;
            memcpy(frame[filled++].data, packets[line], PACKET);
        }
        watch.slots += count;
        vbi_decode(watch.decoder, frame, filled, time);
        time += 1 / 25.0;
    }
    vbi_decoder_delete(watch.decoder);
    return 0;
}
