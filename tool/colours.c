/* How layers look: the usual colours and the usual stacking order for the names that are usual, and for any other name a colour that follows from its letters
   and is left, so that a layer looks much the same in every picture and none takes metal's blue. */
#include <stdlib.h>

#include "tool.h"

enum { GREEN, RED, BLACK, BLUE, YELLOW, BROWN, GREY, PURPLE, TEAL, ORANGE, PINK, OLIVE, SKY, LIME, VIOLET, SAND, NAVY, MINT, ROSE, MAROON, COLOURS };

static const uint32_t shades[COLOURS] = {
    [GREEN] = 0x2a9d3a, [RED] = 0xd62828,  [BLACK] = 0x222222, [BLUE] = 0x2468d8, [YELLOW] = 0xe8c500, [BROWN] = 0x8a5a2b, [GREY] = 0x808890,
    [PURPLE] = 0x8e3fb5, [TEAL] = 0x008b8b, [ORANGE] = 0xf0871a, [PINK] = 0xee6fb0, [OLIVE] = 0x7c8a1c, [SKY] = 0x56b4e9, [LIME] = 0x8fd12e,
    [VIOLET] = 0x6a5acd, [SAND] = 0xcfa97a, [NAVY] = 0x1c2f7a, [MINT] = 0x55cda0, [ROSE] = 0xc2476a, [MAROON] = 0x701c2c,
};

/* The primer's nMOS layers in the colours of that school, and the scalable CMOS layers by their counterparts; from the lowest to the highest, with cuts over
   what they open, so that they can be seen. Wells and implants are outlined. */
static const struct {
  char name[5];
  unsigned char shade;
  bool outlined;
} usual[] = {
    {"CWN", SAND, true},    {"CWP", MINT, true},    {"NI", YELLOW, true},   {"CSN", LIME, true},    {"CSP", ORANGE, true},  {"ND", GREEN, false},
    {"CAA", GREEN, false},  {"NB", BROWN, false},   {"NP", RED, false},     {"CPG", RED, false},    {"CEL", YELLOW, false}, {"NM", BLUE, false},
    {"CMF", BLUE, false},   {"NC", BLACK, false},   {"CCC", BLACK, false},  {"CCA", BLACK, false},  {"CCP", BLACK, false},  {"CMS", PURPLE, false},
    {"CVA", MAROON, false}, {"CMT", TEAL, false},   {"CVS", NAVY, false},   {"NG", GREY, false},    {"COG", GREY, false},
};
enum { USUAL = sizeof usual / sizeof *usual };

static bool has_name(uint32_t layer, const char *name) {
  uint32_t packed = 0;
  for (int shift = 24; *name != 0; shift -= 8) packed |= (uint32_t)(unsigned char)*name++ << shift;
  return packed == layer;
}

/* Which of the usual layers, or USUAL for none of them. */
static int usual_layer(uint32_t layer) {
  int i = 0;
  while (i < USUAL && !has_name(layer, usual[i].name)) i++;
  return i;
}

static int by_height(const void *one, const void *other) {
  const struct layer *a = one, *b = other;
  if (a->height != b->height) return a->height - b->height;
  return (a->start > b->start) - (a->start < b->start);
}

/* The shade that follows from the name, or the next one that is left. The first four mean diffusion, poly, contact and metal to everybody who looks at layouts,
   so they are given to no other layer as long as there are others. */
static int free_shade(uint32_t name, const bool taken[COLOURS]) {
  enum { MEANT = 4, REST = COLOURS - MEANT };
  int first = (int)((name ^ name >> 13) * 2654435761u >> 8 & 0xffffff) % REST;
  for (int i = 0; i < REST; i++) {
    if (!taken[MEANT + (first + i) % REST]) return MEANT + (first + i) % REST;
  }
  for (int i = 0; i < MEANT; i++) {
    if (!taken[i]) return i;
  }
  return MEANT + first;
}

void colour_layers(struct layer *layers, size_t count) {
  bool taken[COLOURS] = {false};
  for (size_t i = 0; i < count; i++) {
    layers[i].height = usual_layer(layers[i].name);
    if (layers[i].height == USUAL) continue;
    layers[i].outlined = usual[layers[i].height].outlined;
    layers[i].colour = shades[usual[layers[i].height].shade];
    taken[usual[layers[i].height].shade] = true;
  }
  for (size_t i = 0; i < count; i++) {
    if (layers[i].height < USUAL) continue;
    int shade = free_shade(layers[i].name, taken);
    taken[shade] = true;
    layers[i].colour = shades[shade];
  }
  qsort(layers, count, sizeof *layers, by_height);
}
