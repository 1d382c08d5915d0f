/* Writes the record on standard input with its labels: cc label.c $(pkg-config --cflags --libs cip) -o label */
#include <cip.h>
#include <stdio.h>
#include <stdlib.h>

#define ROOM (1 << 20)

int main(void) {
    cip_labeller labeller;
    uint8_t *record = malloc(ROOM), *text = calloc(ROOM, 1);
    if (!record || !text || cip_make(&labeller, CIP_NODES, CIP_WORDING) != 0) return 5;
    size_t length = fread(record, 1, ROOM, stdin);
    int64_t whole = cip_annotate(&labeller, record, length, text, ROOM);
    if (whole < 0 || whole > ROOM) return 1;
    fwrite(text, 1, (size_t)whole, stdout);
    cip_release(&labeller);
    free(record);
    free(text);
    return 0;
}
