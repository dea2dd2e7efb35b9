/* How many bytes of a tile its layers, keys and geometries take, for mvt-audit: in the shortest spelling of what its rows
 * say, which is that of the canonical form but for unused keys and values. */
#include "module.h"

/* Of a tile with more layers, or a layer with more keys, the rest is summed up; of a name the first bytes are told. */
enum { MOST_NAMED = 256, MOST_OF_NAME = 200 };

typedef struct {
    const mvt_tile *tile;
    uint64_t *keys;      /* of each key of the tile, the bytes that it costs in its layer */
    uint8_t *is_counted; /* of each value of the tile, whether a key has it */
} measuring;

typedef struct {
    uint64_t bytes, geometry;
} sizes;

/* The bytes of a varint. */
static uint64_t of_number(uint64_t number) {
    uint64_t bytes = 1;
    while (number >>= 7) ++bytes;
    return bytes;
}

/* The bytes of a field of a number below 16 that has so many bytes. */
static uint64_t of_field(uint64_t bytes) { return 1 + of_number(bytes) + bytes; }

static uint64_t of_signed(int64_t number) { return of_number(((uint64_t)number << 1) ^ (number < 0 ? UINT64_MAX : 0)); }

static uint64_t of_value(const mvt_value *value) {
    switch (value->kind) {
    case MVT_TEXT: return of_field(value->text.len);
    case MVT_FLOAT: return 5;
    case MVT_DOUBLE: return 9;
    case MVT_SINT: return 1 + of_signed((int64_t)value->bits);
    default: return 1 + of_number(value->bits);
    }
}

/* The steps of a part, from where the one before it ended. */
static uint64_t of_steps(const mvt_tile *tile, mvt_span points, mvt_point *at) {
    uint64_t bytes = 0;
    for (uint64_t i = points.start; i < points.start + points.len; ++i) {
        const mvt_point to = tile->points[i];
        bytes += of_signed((int64_t)to.x - at->x) + of_signed((int64_t)to.y - at->y);
        *at = to;
    }
    return bytes;
}

/* The commands of a part. */
static uint64_t of_commands(uint32_t kind, uint64_t points) {
    if (kind == MVT_POINTS) return of_number(points << 3);
    return 1 + of_number((points - 1) << 3) + (kind == MVT_POLYGONS);
}

static uint64_t of_geometry(const mvt_tile *tile, const mvt_feature *feature) {
    uint64_t bytes = 0;
    mvt_point at = {0, 0};
    for (uint64_t i = feature->parts.start; i < feature->parts.start + feature->parts.len; ++i) {
        const mvt_span points = tile->parts[i].points;
        bytes += of_commands(feature->kind, points.len) + of_steps(tile, points, &at);
    }
    for (uint64_t i = feature->integers.start; i < feature->integers.start + feature->integers.len; ++i)
        bytes += of_number(tile->integers[i]);
    return of_field(bytes);
}

/* The tags of a feature. A value that several keys have costs the first of them. */
static uint64_t of_tags(measuring *of, const mvt_layer *layer, mvt_span tags) {
    uint64_t bytes = 0;
    for (uint64_t i = tags.start; i + 1 < tags.start + tags.len; i += 2) {
        const uint32_t key = of->tile->tags[i], value = of->tile->tags[i + 1];
        const uint64_t pair = of_number(key) + of_number(value), at = layer->values.start + value;
        uint64_t *costs = &of->keys[layer->keys.start + key];
        bytes += pair;
        *costs += pair;
        if (!of->is_counted[at]) *costs += of_field(of_value(&of->tile->values[at]));
        of->is_counted[at] = 1;
    }
    return bytes == 0 ? 0 : of_field(bytes);
}

static void measure_feature(measuring *of, const mvt_layer *layer, const mvt_feature *feature, sizes *to) {
    const uint64_t geometry = of_geometry(of->tile, feature), id = feature->has_id ? 1 + of_number(feature->id) : 0;
    to->bytes += of_field(id + of_tags(of, layer, feature->tags) + 2 + geometry);
    to->geometry += geometry;
}

static sizes measure_layer(measuring *of, const mvt_layer *layer) {
    sizes to = {0, 0};
    if (layer->version != 2) {
        to.bytes = of_field(layer->bytes.len);
        return to;
    }
    to.bytes = 2 + of_field(layer->name.len) + 1 + of_number(layer->extent);
    for (uint64_t i = layer->features.start; i < layer->features.start + layer->features.len; ++i)
        measure_feature(of, layer, &of->tile->features[i], &to);
    for (uint64_t i = layer->keys.start; i < layer->keys.start + layer->keys.len; ++i) {
        const uint64_t bytes = of_field(of->tile->keys[i].len);
        to.bytes += bytes;
        of->keys[i] += bytes;
    }
    for (uint64_t i = layer->values.start; i < layer->values.start + layer->values.len; ++i)
        to.bytes += of_field(of_value(&of->tile->values[i]));
    to.bytes = of_field(to.bytes);
    return to;
}

/* A name, or its first letters and a mark. */
static PyObject *name_told(const mvt_tile *tile, mvt_span text) {
    static const char MARK[] = "\xe2\x80\xa6";
    char cut[MOST_OF_NAME + sizeof MARK];
    const char *name = (const char *)tile->texts + text.start;
    size_t len = text.len;
    if (len > MOST_OF_NAME) {
        for (len = MOST_OF_NAME; len > 0 && (name[len] & 0xc0) == 0x80;) --len;
        memcpy(cut, name, len);
        memcpy(cut + len, MARK, sizeof MARK);
        name = cut, len += sizeof MARK - 1;
    }
    return PyUnicode_DecodeUTF8(name, (Py_ssize_t)len, "replace");
}

/* The keys of a layer, each with its bytes; those behind the first ones under None. */
static PyObject *keys_told(const measuring *of, mvt_span keys) {
    const uint64_t named = keys.len < MOST_NAMED ? keys.len : MOST_NAMED;
    PyObject *told = PyList_New((Py_ssize_t)named);
    for (uint64_t i = 0; told != NULL && i < named; ++i) {
        PyObject *one = Py_BuildValue("(NK)", name_told(of->tile, of->tile->keys[keys.start + i]),
                                      (unsigned long long)of->keys[keys.start + i]);
        if (one == NULL || PyList_SetItem(told, (Py_ssize_t)i, one) < 0) Py_CLEAR(told);
    }
    uint64_t rest = 0;
    for (uint64_t i = named; i < keys.len; ++i) rest += of->keys[keys.start + i];
    PyObject *others = told == NULL || rest == 0 ? NULL : Py_BuildValue("(OK)", Py_None, (unsigned long long)rest);
    if (rest != 0 && (others == NULL || PyList_Append(told, others) < 0)) Py_CLEAR(told);
    Py_XDECREF(others);
    return told;
}

/* A layer: its name, or None, and its features, bytes, bytes of geometry, and keys. */
static PyObject *layer_told(measuring *of, size_t at) {
    const mvt_layer *layer = &of->tile->layers[at];
    const sizes found = measure_layer(of, layer);
    const int is_named = layer->version == 2 && at < MOST_NAMED;
    PyObject *name = Py_None, *keys = is_named ? keys_told(of, layer->keys) : PyList_New(0);
    if (is_named)
        name = name_told(of->tile, layer->name);
    else
        Py_INCREF(name);
    if (name == NULL || keys == NULL) {
        Py_XDECREF(name);
        Py_XDECREF(keys);
        return NULL;
    }
    return Py_BuildValue("(NKKKN)", name, (unsigned long long)layer->features.len, (unsigned long long)found.bytes,
                         (unsigned long long)found.geometry, keys);
}

static PyObject *tile_told(const mvt_tile *tile) {
    measuring of = {tile, PyMem_Calloc(tile->key_count + 1, sizeof(uint64_t)), PyMem_Calloc(tile->value_count + 1, 1)};
    PyObject *told =
        of.keys == NULL || of.is_counted == NULL ? PyErr_NoMemory() : PyList_New((Py_ssize_t)tile->layer_count);
    for (size_t at = 0; told != NULL && at < tile->layer_count; ++at) {
        PyObject *layer = layer_told(&of, at);
        if (layer == NULL || PyList_SetItem(told, (Py_ssize_t)at, layer) < 0) Py_CLEAR(told);
    }
    PyMem_Free(of.keys);
    PyMem_Free(of.is_counted);
    return told;
}

static PyObject *measured(PyObject *module, PyObject *words) {
    (void)module;
    PyObject *given;
    unsigned long long most = UINT64_MAX;
    if (!PyArg_ParseTuple(words, "O|K:measured", &given, &most)) return NULL;
    PyObject *told = NULL, *bytes = bytes_of(given);
    if (bytes == NULL) return NULL;
    mvt_tile tile = {0};
    mvt_fault fault = {0};
    size_t len;
    const uint8_t *content = content_of(bytes, &len);
    uint32_t status;
    Py_BEGIN_ALLOW_THREADS status = mvt_read(content, len, most, &tile, &fault);
    Py_END_ALLOW_THREADS if (status == MVT_OK) { told = tile_told(&tile); }
    else {
        told = Py_None;
        Py_INCREF(told);
    }
    mvt_tile_free(&tile);
    Py_DECREF(bytes);
    return told;
}

PyMethodDef SIZES_CALLS[] = {
    {"measured", measured, METH_VARARGS,
     "measured($module, tile, most=18446744073709551615, /)\n--\n\n"
     "Of each layer the name or None, the number of features, the bytes, those of geometries, and each key with its bytes. Names\n"
     "and keys of more than 200 bytes are cut there. None for a tile that is refused, or whose rows would have more bytes than\n"
     "`most`."},
    {NULL, NULL, 0, NULL},
};
