/* Tiles as plain objects, made of rows that the library hands out: each span of these lies within its list. */
#include "module.h"

/* Positions that lie within most tiles or near them are made once for a tile of many points. */
enum { SHARED_FROM = -1024, SHARED = 8192, MANY_POINTS = 1000 };

/* So many new objects Python's collector of cycles looks at together, and so few at the end it doesn't look at. */
enum { AT_A_TIME = 250000, FEW = 10000 };

/* What is read. */
typedef struct {
    const state *of;
    const mvt_tile *tile;
    PyObject **shared;    /* SHARED positions from SHARED_FROM on, where they were met; or NULL */
    PyObject *thresholds; /* the collector's own, if it ran before, else NULL */
    uint64_t made;        /* objects that the collector hasn't looked at */
} reader;

/* Has the collector look at the objects that are new. */
static void look(reader *from) {
    from->made = 0;
    Py_XDECREF(PyObject_CallObject(from->of->collect, from->of->young));
    PyErr_Clear();
}

static PyObject *position_of(const reader *from, int32_t position) {
    const uint32_t at = (uint32_t)position - (uint32_t)SHARED_FROM;
    if (from->shared == NULL || at >= SHARED) return PyLong_FromLong(position);
    PyObject **known = &from->shared[at];
    if (*known == NULL) *known = PyLong_FromLong(position);
    Py_XINCREF(*known);
    return *known;
}

/* A pair of numbers, which the collector of cycles needn't look at. */
static PyObject *point_of(const reader *from, mvt_point point) {
    PyObject *pair = PyTuple_New(2), *x = position_of(from, point.x), *y = position_of(from, point.y);
    if (pair != NULL && x != NULL && y != NULL) {
        PyTuple_SetItem(pair, 0, x);
        PyTuple_SetItem(pair, 1, y);
        PyObject_GC_UnTrack(pair);
        return pair;
    }
    Py_XDECREF(pair);
    Py_XDECREF(x);
    Py_XDECREF(y);
    return NULL;
}

/* Puts points into a list, from a place on. */
static int put_points(const reader *from, PyObject *to, Py_ssize_t at, mvt_span span) {
    const mvt_point *points = from->tile->points + span.start;
    for (uint64_t i = 0; i < span.len; ++i) {
        PyObject *point = point_of(from, points[i]);
        if (point == NULL || PyList_SetItem(to, at + (Py_ssize_t)i, point) < 0) return -1;
    }
    return 0;
}

static PyObject *line_of(const reader *from, mvt_span span) {
    PyObject *line = PyList_New((Py_ssize_t)span.len);
    if (line != NULL && put_points(from, line, 0, span) < 0) Py_CLEAR(line);
    return line;
}

static PyObject *integers_of(const reader *from, mvt_span span) {
    PyObject *integers = PyList_New((Py_ssize_t)span.len);
    for (uint64_t i = 0; integers != NULL && i < span.len; ++i) {
        PyObject *number = PyLong_FromUnsignedLong(from->tile->integers[span.start + i]);
        if (number == NULL || PyList_SetItem(integers, (Py_ssize_t)i, number) < 0) Py_CLEAR(integers);
    }
    return integers;
}

/* The points of all parts of a feature: the library hands them out as one part. */
static PyObject *points_of(const reader *from, const mvt_feature *row) {
    uint64_t count = 0;
    for (uint64_t i = 0; i < row->parts.len; ++i) count += from->tile->parts[row->parts.start + i].points.len;
    PyObject *points = PyList_New((Py_ssize_t)count);
    Py_ssize_t at = 0;
    for (uint64_t i = 0; points != NULL && i < row->parts.len; ++i) {
        const mvt_span span = from->tile->parts[row->parts.start + i].points;
        if (put_points(from, points, at, span) < 0) Py_CLEAR(points);
        at += (Py_ssize_t)span.len;
    }
    return points;
}

static PyObject *lines_of(const reader *from, mvt_span parts) {
    PyObject *lines = PyList_New((Py_ssize_t)parts.len);
    for (uint64_t i = 0; lines != NULL && i < parts.len; ++i) {
        PyObject *line = line_of(from, from->tile->parts[parts.start + i].points);
        if (line == NULL || PyList_SetItem(lines, (Py_ssize_t)i, line) < 0) Py_CLEAR(lines);
    }
    return lines;
}

/* The rings from an exterior one up to the next, whose number the span begins with. */
static PyObject *polygon_of(const reader *from, mvt_span parts) {
    uint64_t len = 1;
    while (len < parts.len && !from->tile->parts[parts.start + len].exterior) ++len;
    return lines_of(from, (mvt_span){parts.start, len});
}

static PyObject *polygons_of(const reader *from, mvt_span parts) {
    uint64_t count = 0;
    for (uint64_t i = 0; i < parts.len; ++i) count += from->tile->parts[parts.start + i].exterior;
    PyObject *polygons = PyList_New((Py_ssize_t)count);
    for (uint64_t i = 0; polygons != NULL && i < count; ++i) {
        PyObject *polygon = polygon_of(from, parts);
        const uint64_t len = polygon == NULL ? 0 : (uint64_t)PyList_Size(polygon);
        parts.start += len, parts.len -= len;
        if (polygon == NULL || PyList_SetItem(polygons, (Py_ssize_t)i, polygon) < 0) Py_CLEAR(polygons);
    }
    return polygons;
}

static PyObject *geometry_of(const reader *from, const mvt_feature *row) {
    switch (row->kind) {
    case MVT_POINTS: return points_of(from, row);
    case MVT_LINES: return lines_of(from, row->parts);
    case MVT_POLYGONS: return polygons_of(from, row->parts);
    default: return integers_of(from, row->integers);
    }
}

static PyObject *attributes_of(const reader *from, mvt_span tags, PyObject *keys, PyObject *values) {
    PyObject *attributes = PyDict_New();
    const uint32_t *at = from->tile->tags + tags.start;
    for (uint64_t i = 0; attributes != NULL && i + 1 < tags.len; i += 2)
        if (PyDict_SetItem(attributes, PyTuple_GetItem(keys, at[i]), PyTuple_GetItem(values, at[i + 1])) < 0)
            Py_CLEAR(attributes);
    return attributes;
}

/* Sets an attribute to what is made for it, which may be NULL after an error. */
static int set(const state *of, PyObject *object, int name, PyObject *made) {
    const int status = made == NULL ? -1 : PyObject_SetAttr(object, of->names[name], made);
    Py_XDECREF(made);
    return status;
}

static PyObject *id_of(const mvt_feature *row) {
    if (row->has_id) return PyLong_FromUnsignedLongLong(row->id);
    Py_INCREF(Py_None);
    return Py_None;
}

static PyObject *feature_of(const reader *from, const mvt_feature *row, PyObject *keys, PyObject *values) {
    const state *of = from->of;
    PyObject *feature = of->new_feature((PyTypeObject *)of->feature, of->no_words, NULL);
    if (feature == NULL) return NULL;
    if (set(of, feature, NAME_ID, id_of(row)) == 0 &&
        set(of, feature, NAME_ATTRIBUTES, attributes_of(from, row->tags, keys, values)) == 0 &&
        PyObject_SetAttr(feature, of->names[NAME_KIND], of->kinds[row->kind]) == 0 &&
        set(of, feature, NAME_GEOMETRY, geometry_of(from, row)) == 0)
        return feature;
    Py_DECREF(feature);
    return NULL;
}

static PyObject *keys_of(const reader *from, mvt_span span) {
    PyObject *keys = PyTuple_New((Py_ssize_t)span.len);
    for (uint64_t i = 0; keys != NULL && i < span.len; ++i) {
        PyObject *key = text_read(from->tile, from->tile->keys[span.start + i]);
        if (key == NULL || PyTuple_SetItem(keys, (Py_ssize_t)i, key) < 0) Py_CLEAR(keys);
    }
    return keys;
}

static PyObject *values_of(const reader *from, mvt_span span) {
    PyObject *values = PyTuple_New((Py_ssize_t)span.len);
    for (uint64_t i = 0; values != NULL && i < span.len; ++i) {
        PyObject *value = value_read(from->of, from->tile, from->tile->values + span.start + i);
        if (value == NULL || PyTuple_SetItem(values, (Py_ssize_t)i, value) < 0) Py_CLEAR(values);
    }
    return values;
}

/* A feature has objects for itself, its geometry, each part and each point. */
static void count_made(reader *from, const mvt_feature *row) {
    from->made += 2 + row->parts.len;
    for (uint64_t i = 0; i < row->parts.len; ++i) from->made += from->tile->parts[row->parts.start + i].points.len;
    if (from->thresholds != NULL && from->made >= AT_A_TIME) look(from);
}

static PyObject *features_of(reader *from, const mvt_layer *row) {
    PyObject *keys = keys_of(from, row->keys), *values = keys == NULL ? NULL : values_of(from, row->values);
    PyObject *features = values == NULL ? NULL : PyList_New((Py_ssize_t)row->features.len);
    for (uint64_t i = 0; features != NULL && i < row->features.len; ++i) {
        PyObject *feature = NULL;
        const mvt_feature *one = from->tile->features + row->features.start + i;
        if (PyErr_CheckSignals() == 0) feature = feature_of(from, one, keys, values);
        if (feature == NULL || PyList_SetItem(features, (Py_ssize_t)i, feature) < 0) Py_CLEAR(features);
        if (features != NULL) count_made(from, one);
    }
    Py_XDECREF(values);
    Py_XDECREF(keys);
    return features;
}

/* A layer, or a Foreign. */
static PyObject *layer_of(reader *from, const mvt_layer *row) {
    if (row->version != 2) {
        const char *bytes = row->bytes.len == 0 ? "" : (const char *)from->tile->texts + row->bytes.start;
        return PyObject_CallFunction(from->of->foreign, "ky#", (unsigned long)row->version, bytes,
                                     (Py_ssize_t)row->bytes.len);
    }
    PyObject *name = text_read(from->tile, row->name), *features = name == NULL ? NULL : features_of(from, row);
    PyObject *made = NULL;
    if (features != NULL)
        made = PyObject_CallFunction(from->of->layer, "OkO", name, (unsigned long)row->extent, features);
    Py_XDECREF(features);
    Py_XDECREF(name);
    return made;
}

static PyObject *layers_of(reader *from) {
    PyObject *layers = PyList_New((Py_ssize_t)from->tile->layer_count);
    for (size_t i = 0; layers != NULL && i < from->tile->layer_count; ++i) {
        PyObject *layer = layer_of(from, from->tile->layers + i);
        if (layer == NULL || PyList_SetItem(layers, (Py_ssize_t)i, layer) < 0) Py_CLEAR(layers);
    }
    return layers;
}

/* Whether the collector runs by itself: it is on, and its first threshold isn't 0. */
static int is_running(const state *of, PyObject *thresholds) {
    PyObject *on = PyObject_CallObject(of->is_collecting, NULL);
    const int runs = on == Py_True && PyLong_AsLong(PyTuple_GetItem(thresholds, 0)) != 0;
    Py_XDECREF(on);
    return runs;
}

/* Has the collector not run by itself: as objects grow in number it would look at all that there are again and again, and
 * there are no cycles among new ones. Its thresholds say so, and not whether it is on, which is for others to say meanwhile.
 * Answers what they were, or NULL where it doesn't run. */
static PyObject *stop_collector(const state *of) {
    PyObject *thresholds = PyObject_CallObject(of->thresholds, NULL);
    if (thresholds != NULL && is_running(of, thresholds)) {
        Py_XDECREF(PyObject_CallFunction(of->set_thresholds, "i", 0));
    } else {
        Py_CLEAR(thresholds);
    }
    PyErr_Clear();
    return thresholds;
}

/* Lets the collector run again, where nobody set other thresholds. What is new it has seen then, where there is much. */
static void start_collector(reader *from) {
    PyObject *type, *value, *traceback;
    PyErr_Fetch(&type, &value, &traceback);
    if (from->made >= FEW) look(from);
    PyObject *now = PyObject_CallObject(from->of->thresholds, NULL);
    if (now != NULL && PyLong_AsLong(PyTuple_GetItem(now, 0)) == 0)
        Py_XDECREF(PyObject_CallObject(from->of->set_thresholds, from->thresholds));
    Py_XDECREF(now);
    Py_DECREF(from->thresholds);
    PyErr_Restore(type, value, traceback);
}

/* The list of a tile's layers. */
static PyObject *layers_read(const state *of, const mvt_tile *tile) {
    reader from = {.of = of, .tile = tile, .thresholds = stop_collector(of)};
    if (tile->point_count >= MANY_POINTS) from.shared = PyMem_Calloc(SHARED, sizeof *from.shared);
    PyObject *layers = layers_of(&from);
    for (size_t i = 0; from.shared != NULL && i < SHARED; ++i) Py_XDECREF(from.shared[i]);
    PyMem_Free(from.shared);
    if (from.thresholds != NULL) start_collector(&from);
    return layers;
}

PyObject *tile_read(const state *of, const mvt_tile *tile) {
    PyObject *layers = layers_read(of, tile);
    PyObject *made = layers == NULL ? NULL : PyObject_CallFunctionObjArgs(of->tile, layers, NULL);
    Py_XDECREF(layers);
    return made;
}

/* The rows of the tile that is given, or NULL with an error. */
static int read_rows(const state *of, PyObject *given, unsigned long long most, mvt_tile *out) {
    PyObject *tile = bytes_of(given);
    if (tile == NULL) return -1;
    mvt_fault fault = {0};
    size_t len;
    const uint8_t *bytes = content_of(tile, &len);
    uint32_t status;
    Py_BEGIN_ALLOW_THREADS status = mvt_read(bytes, len, most, out, &fault);
    Py_END_ALLOW_THREADS const int failed = raise_for(of, status, &fault, bytes, len, tile);
    Py_DECREF(tile);
    return failed;
}

static int words_of(PyObject *words, PyObject *named, PyObject **tile, unsigned long long *most) {
    static char *known[] = {"tile", "most", NULL};
    *most = UINT64_MAX;
    return PyArg_ParseTupleAndKeywords(words, named, "O|K", known, tile, most);
}

static PyObject *read_tile(PyObject *module, PyObject *words, PyObject *named) {
    PyObject *given;
    unsigned long long most;
    mvt_tile tile = {0};
    const state *of = state_of_module(module);
    if (!words_of(words, named, &given, &most) || read_rows(of, given, most, &tile) < 0) return NULL;
    PyObject *made = tile_read(of, &tile);
    mvt_tile_free(&tile);
    return made;
}

static PyObject *rows(PyObject *module, PyObject *words, PyObject *named) {
    PyObject *given;
    unsigned long long most;
    state *of = state_of_module(module);
    if (!words_of(words, named, &given, &most)) return NULL;
    held *owner = new_held(of);
    if (owner != NULL && read_rows(of, given, most, &owner->tile) < 0) Py_CLEAR(owner);
    return flat_of(of, owner);
}

/* The layer of a name, whose bytes these are. */
static PyObject *layer_named(const state *of, PyObject *tile, PyObject *name, PyObject *encoded_name) {
    mvt_bytes named;
    mvt_tile out = {0};
    mvt_fault fault = {0};
    size_t len;
    named.data = content_of(encoded_name, &named.len);
    const uint8_t *bytes = content_of(tile, &len);
    uint32_t status;
    Py_BEGIN_ALLOW_THREADS status = mvt_read_layer(bytes, len, named, &out, &fault);
    Py_END_ALLOW_THREADS PyObject *made = NULL;
    if (status == MVT_NO_LAYER) {
        PyObject *why = PyObject_CallFunctionObjArgs(of->no_layer, name, NULL);
        if (why != NULL) PyErr_SetObject(of->no_layer, why);
        Py_XDECREF(why);
    } else if (raise_for(of, status, &fault, bytes, len, tile) == 0) {
        PyObject *layers = layers_read(of, &out);
        made = layers == NULL ? NULL : PySequence_GetItem(layers, 0);
        Py_XDECREF(layers);
    }
    mvt_tile_free(&out);
    return made;
}

static PyObject *read_layer(PyObject *module, PyObject *words, PyObject *named) {
    static char *known[] = {"tile", "name", NULL};
    PyObject *given, *name;
    if (!PyArg_ParseTupleAndKeywords(words, named, "OU:read_layer", known, &given, &name)) return NULL;
    PyObject *tile = bytes_of(given), *encoded_name = tile == NULL ? NULL : PyUnicode_AsUTF8String(name);
    PyObject *made = encoded_name == NULL ? NULL : layer_named(state_of_module(module), tile, name, encoded_name);
    Py_XDECREF(encoded_name);
    Py_XDECREF(tile);
    return made;
}

#define WITHIN "($module, /, tile, most=18446744073709551615)\n--\n\n"

PyMethodDef READING_CALLS[] = {
    {"read", WITH_WORDS(read_tile),
     "read" WITHIN
     "A tile as plain objects. Raises Refused, and MemoryError where its flat rows would have more bytes\n"
     "than `most`."},
    {"rows", WITH_WORDS(rows),
     "rows" WITHIN "A tile as flat rows, for numpy and for tiles with many features. Raises Refused, and MemoryError\n"
     "where the lists of rows would have more bytes than `most`."},
    {"read_layer", WITH_WORDS(read_layer),
     "read_layer($module, /, tile, name)\n--\n\n"
     "The first layer of version 2 with this name, as plain objects. Reads only as far as this layer.\n\n"
     "Raises NoLayer where no layer has the name, and Refused."},
    {NULL, NULL, 0, NULL},
};
