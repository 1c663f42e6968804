/* Prints what libzvbi's teletext decoder shows for the character codes 20 to 7F under each national option: one line for each option,
 * with the code points in the order of the codes. The region is Western Europe, libzvbi's 0. national_options.txt was made with it:
 *
 *     cc national_options.c $(pkg-config --cflags --libs zvbi-0.2) && ./a.out */
#include <libzvbi.h>
#include <stdio.h>
#include <string.h>

static const unsigned char WORDS[16] = {0x15, 0x02, 0x49, 0x5e, 0x64, 0x73, 0x38, 0x2f, 0xd0, 0xc7, 0x8c, 0x9b, 0xa1, 0xb6, 0xfd, 0xea};

static unsigned char odd(unsigned char code) {
    return __builtin_parity(code) ? code : code | 0x80;
}

static void header(unsigned char *packet, int page, int option) {
    /* C11: serial. C12 to C14: the option, upper bit first. D1 is C11. */
    int last = 1 | (option >> 2 & 1) << 1 | (option >> 1 & 1) << 2 | (option & 1) << 3;
    int numbers[10] = {1, 0, page % 16, page / 16, 0, 0, 0, 0, 0, last};
    for (int i = 0; i < 10; i++) packet[i] = WORDS[numbers[i]];
    memset(packet + 10, 0x20, 32);
}

static void ignore(vbi_event *event, void *data) { (void)event; (void)data; }

static void feed(vbi_decoder *decoder, const unsigned char *packet, double *time) {
    vbi_sliced line;
    memset(&line, 0, sizeof line);
    line.id = VBI_SLICED_TELETEXT_B;
    line.line = 7;
    memcpy(line.data, packet, 42);
    vbi_decode(decoder, &line, 1, *time);
    *time += 1 / 25.0;
}

int main(void) {
    for (int option = 0; option < 8; option++) {
        vbi_decoder *decoder = vbi_decoder_new();
        vbi_event_handler_add(decoder, VBI_EVENT_TTX_PAGE, ignore, NULL);
        vbi_teletext_set_default_region(decoder, 0);
        double time = 0;
        unsigned char packet[42];
        for (int again = 0; again < 3; again++) {
            header(packet, 0x00, option);
            feed(decoder, packet, &time);
            for (int row = 1; row < 4; row++) {
                packet[0] = WORDS[1 + 8 * (row % 2)];
                packet[1] = WORDS[row / 2];
                memset(packet + 2, 0x20, 40);
                for (int i = 0; i < 32; i++) packet[2 + i] = odd(0x20 * row + i);
                feed(decoder, packet, &time);
            }
            header(packet, 0x01, option);
            feed(decoder, packet, &time);
        }
        vbi_page page;
        if (!vbi_fetch_vt_page(decoder, &page, 0x100, VBI_ANY_SUBNO, VBI_WST_LEVEL_1, 25, FALSE)) return 1;
        printf("%d", option);
        for (int code = 0x20; code < 0x80; code++) printf(" %04X", page.text[(code / 32) * page.columns + code % 32].unicode);
        putchar('\n');
        vbi_unref_page(&page);
        vbi_decoder_delete(decoder);
    }
    return 0;
}
