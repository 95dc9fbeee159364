/* Lays out a compiled layout file in a window of 360 by 640 pixels, and prints the bounds of its views.
 *
 *     cc lay_out.c $(pkg-config --cflags --libs vindaesk) -o lay_out
 *     ./lay_out page.xml
 */
#include <stdio.h>
#include <stdlib.h>
#include <vindaesk.h>

int main(int count, char **words)
{
    static const char script[] = "window 360 640\ninflate page.xml\nframe\nbounds\n";
    FILE *file = count == 2 ? fopen(words[1], "rb") : NULL;
    if (file == NULL) {
        fprintf(stderr, "usage: lay_out FILE\n");
        return 2;
    }
    static uint8_t layout[1 << 20], files[(1 << 20) + 64];
    size_t layout_size = fread(layout, 1, sizeof layout, file);
    uint8_t *end = vindaesk_put_file(files, "page.xml", 8, layout, layout_size);
    fclose(file);

    size_t room = 4096, size = 0;
    for (;;) {
        uint8_t *answer = malloc(room);
        if (answer == NULL)
            return VINDAESK_NO_MEMORY;
        uint8_t status = vindaesk_run((const uint8_t *)script, sizeof script - 1, files, (size_t)(end - files), answer,
                                      room, &size);
        if (status != VINDAESK_SMALL) {
            fwrite(answer, 1, size, stdout);
            free(answer);
            return status;
        }
        free(answer);
        room = size;
    }
}
