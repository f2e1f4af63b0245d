/* The flat file by layers, in the order in which they first appear: runs of neighbouring shapes on one layer, gathered by name. There may be as many layers
   as shapes, so runs are sorted and never searched. */
#include <stdlib.h>

#include "tool.h"

static int order(uint32_t one, uint32_t other) { return (one > other) - (one < other); }

static int by_name_and_start(const void *one, const void *other) {
  const struct run *a = one, *b = other;
  return a->layer != b->layer ? order(a->layer, b->layer) : order(a->start, b->start);
}

static size_t count_runs(struct bytes flat) {
  static struct shape shape;
  struct walk walk = walk_over(flat);
  size_t runs = 0;
  for (uint32_t last = 0; next_shape(&walk, &shape); last = shape.layer) runs += shape.layer != last;
  return runs;
}

static void fill_runs(struct bytes flat, struct run *runs) {
  static struct shape shape;
  struct walk walk = walk_over(flat);
  struct run *next = runs;
  for (uint32_t last = 0; next_shape(&walk, &shape); last = shape.layer) {
    if (shape.layer != last) *next++ = (struct run){.layer = shape.layer, .start = (uint32_t)shape.start};
    next[-1].end = (uint32_t)walk.at;
    next[-1].shapes++;
  }
}

/* Whether a sorted run is the first of its layer. */
static bool starts_layer(const struct layers *layers, size_t run) { return run == 0 || layers->runs[run].layer != layers->runs[run - 1].layer; }

static size_t count_layers(const struct layers *layers) {
  size_t count = 0;
  for (size_t i = 0; i < layers->run_count; i++) count += starts_layer(layers, i);
  return count;
}

static void fill_layers(struct layers *layers) {
  struct layer *next = layers->all;
  for (size_t i = 0; i < layers->run_count; i++) {
    const struct run *run = &layers->runs[i];
    if (starts_layer(layers, i)) *next++ = (struct layer){.name = run->layer, .first_run = i, .start = run->start};
    next[-1].runs++;
    next[-1].shapes += run->shapes;
  }
}

static int by_start(const void *one, const void *other) {
  const struct layer *a = one, *b = other;
  return order(a->start, b->start);
}

static bool gather(struct layers *layers) {
  qsort(layers->runs, layers->run_count, sizeof *layers->runs, by_name_and_start);
  layers->count = count_layers(layers);
  layers->all = malloc(layers->count * sizeof *layers->all);
  if (layers->all == NULL) return false;
  fill_layers(layers);
  qsort(layers->all, layers->count, sizeof *layers->all, by_start);
  return true;
}

bool find_layers(struct bytes flat, struct layers *layers) {
  *layers = (struct layers){.run_count = count_runs(flat)};
  if (layers->run_count == 0) return true;
  layers->runs = malloc(layers->run_count * sizeof *layers->runs);
  if (layers->runs == NULL) return false;
  fill_runs(flat, layers->runs);
  return gather(layers);
}

void release_layers(struct layers *layers) {
  free(layers->runs);
  free(layers->all);
}

struct layer_walk walk_over_layer(struct bytes flat, const struct layers *layers, const struct layer *layer) {
  return (struct layer_walk){.run = &layers->runs[layer->first_run], .runs = layer->runs, .walk = {.flat = flat, .layer = layer->name}};
}

bool next_on_layer(struct layer_walk *layer, struct shape *shape) {
  while (layer->walk.at >= layer->end) {
    if (layer->runs == 0) return false;
    layer->walk.at = layer->run->start;
    layer->end = layer->run->end;
    layer->run++;
    layer->runs--;
  }
  return next_shape(&layer->walk, shape);
}
