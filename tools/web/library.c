/* The calls of the library as exports of a module: cip.h has what they do. The host takes memory by `take`, which is 0
 * where there is none, and gives it back by `give`. */

typedef unsigned long size;
typedef unsigned char byte;
typedef struct tried { _Bool ok; byte *block; } tried;
#define EXPORT(name) __attribute__((export_name(name)))

tried rattle_alloc(size count, size align);
void rattle_dealloc(byte *given);
long cip_make(byte *labeller, unsigned nodes, unsigned year);
long cip_release(byte *labeller);
long cip_annotate(byte *labeller, const byte *record, size length, byte *text, size room);
long cip_values(byte *labeller, const byte *record, size length, byte *text, size room);
long cip_explain(byte *labeller, size number, const byte *record, size length, byte *text, size room);
long cip_undefined(byte *labeller, const byte *record, size length, byte *text, size room);

void abort(void) { __builtin_trap(); }

/* All of a block is written before a call sees it. */
EXPORT("take") byte *web_take(size count) {
    tried made = rattle_alloc(count, 16);
    if (!made.ok) return 0;
    for (size at = 0; at < count; at++) made.block[at] = 0;
    return made.block;
}
EXPORT("give") void web_give(byte *block) { rattle_dealloc(block); }
EXPORT("make") long web_make(byte *labeller, unsigned nodes, unsigned year) { return cip_make(labeller, nodes, year); }
EXPORT("release") long web_release(byte *labeller) { return cip_release(labeller); }
EXPORT("annotate")
long web_annotate(byte *labeller, const byte *record, size length, byte *text, size room) {
    return cip_annotate(labeller, record, length, text, room);
}
EXPORT("values")
long web_values(byte *labeller, const byte *record, size length, byte *text, size room) {
    return cip_values(labeller, record, length, text, room);
}
EXPORT("explain")
long web_explain(byte *labeller, size number, const byte *record, size length, byte *text, size room) {
    return cip_explain(labeller, number, record, length, text, room);
}
EXPORT("undefined")
long web_undefined(byte *labeller, const byte *record, size length, byte *text, size room) {
    return cip_undefined(labeller, record, length, text, room);
}
