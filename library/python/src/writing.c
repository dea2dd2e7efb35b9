/* Tiles written as bytes, from plain objects or from flat rows. */
#include "module.h"

/* The bytes that were made of rows, which are given back, or NULL with what the status means. */
PyObject *made_of_rows(const state *of, uint32_t status, mvt_bytes *out, const mvt_rows_fault *wrong) {
    PyObject *made = NULL;
    if (status == MVT_NO_TILE) {
        raise_no_tile(of, wrong);
    } else if (raise_for(of, status, NULL, NULL, 0, NULL) == 0) {
        made = PyBytes_FromStringAndSize((const char *)out->data, (Py_ssize_t)out->len);
    }
    mvt_bytes_free(out);
    return made;
}

/* The canonical bytes of the tile that rows are. The lock is let go meanwhile. */
static PyObject *written(const state *of, const mvt_tile *rows) {
    mvt_bytes out = {NULL, 0};
    mvt_rows_fault wrong = {0};
    uint32_t status;
    Py_BEGIN_ALLOW_THREADS status = mvt_write(rows, &out, &wrong);
    Py_END_ALLOW_THREADS return made_of_rows(of, status, &out, &wrong);
}

/* What adds one item of a list to a tile that is built. */
typedef int adding(building *to, PyObject *item, Py_ssize_t number);

/* Adds each item of a list, a tuple or what else has items. */
static int add_each(building *to, PyObject *given, adding *add) {
    PyObject *items = sequence_given(given);
    if (items == NULL) return -1;
    const Py_ssize_t count = PyObject_Size(items);
    int status = 0;
    for (Py_ssize_t at = 0; status == 0 && at < count; ++at) {
        PyObject *item = item_of(items, at);
        Py_XINCREF(item);
        status = item == NULL ? -1 : add(to, item, at);
        Py_XDECREF(item);
    }
    Py_DECREF(items);
    return status;
}

/* The same, of what an object has by a name. */
static int add_each_of(building *to, PyObject *object, int name, adding *add) {
    PyObject *items = PyObject_GetAttr(object, to->of->names[name]);
    const int status = items == NULL ? -1 : add_each(to, items, add);
    Py_XDECREF(items);
    return status;
}

static int add_line(building *to, PyObject *line, Py_ssize_t number) {
    (void)number;
    return build_drawn(to, MVT_LINES, 0, line);
}

static int add_ring(building *to, PyObject *ring, Py_ssize_t number) {
    return build_drawn(to, MVT_POLYGONS, number == 0, ring);
}

static int add_polygon(building *to, PyObject *polygon, Py_ssize_t number) {
    (void)number;
    return add_each(to, polygon, add_ring);
}

static int add_geometry(building *to, PyObject *geometry) {
    if (to->kind < MVT_LINES) return build_drawn(to, to->kind, 0, geometry);
    return add_each(to, geometry, to->kind == MVT_LINES ? add_line : add_polygon);
}

static int add_item(building *to, PyObject *item, Py_ssize_t number) {
    (void)number;
    PyObject *pair = PySequence_Tuple(item);
    int status = -1;
    if (pair != NULL && PyTuple_Size(pair) != 2) PyErr_SetString(PyExc_ValueError, "an attribute is a key and a value");
    if (pair != NULL && PyTuple_Size(pair) == 2)
        status = build_tag(to, PyTuple_GetItem(pair, 0), PyTuple_GetItem(pair, 1));
    Py_XDECREF(pair);
    return status;
}

static int add_attributes(building *to, PyObject *attributes) {
    if (!PyDict_CheckExact(attributes)) {
        PyObject *items = PyMapping_Items(attributes);
        const int status = items == NULL ? -1 : add_each(to, items, add_item);
        Py_XDECREF(items);
        return status;
    }
    PyObject *key, *value;
    Py_ssize_t at = 0;
    int status = 0;
    while (status == 0 && PyDict_Next(attributes, &at, &key, &value)) {
        Py_INCREF(key);
        Py_INCREF(value);
        status = build_tag(to, key, value);
        Py_DECREF(value);
        Py_DECREF(key);
    }
    return status;
}

/* Adds what a feature has by a name. */
static int add_of(building *to, PyObject *feature, int name, int (*add)(building *, PyObject *)) {
    PyObject *held = PyObject_GetAttr(feature, to->of->names[name]);
    const int status = held == NULL ? -1 : add(to, held);
    Py_XDECREF(held);
    return status;
}

static int add_feature(building *to, PyObject *feature, Py_ssize_t number) {
    (void)number;
    if (PyErr_CheckSignals() < 0) return -1;
    PyObject *kind = PyObject_GetAttr(feature, to->of->names[NAME_KIND]);
    PyObject *id = kind == NULL ? NULL : PyObject_GetAttr(feature, to->of->names[NAME_ID]);
    int status = id == NULL ? -1 : build_feature(to, kind, id);
    Py_XDECREF(id);
    Py_XDECREF(kind);
    if (status == 0) status = add_of(to, feature, NAME_ATTRIBUTES, add_attributes);
    return status < 0 ? -1 : add_of(to, feature, NAME_GEOMETRY, add_geometry);
}

static int add_layer(building *to, PyObject *layer, Py_ssize_t number) {
    (void)number;
    const int is_foreign = PyObject_IsInstance(layer, to->of->foreign);
    if (is_foreign < 0) return -1;
    PyObject *one = PyObject_GetAttr(layer, to->of->names[is_foreign ? NAME_VERSION : NAME_NAME]);
    PyObject *two = one == NULL ? NULL : PyObject_GetAttr(layer, to->of->names[is_foreign ? NAME_BYTES : NAME_EXTENT]);
    int status = -1;
    if (two != NULL) status = is_foreign ? build_foreign(to, one, two) : build_layer(to, one, two);
    Py_XDECREF(two);
    Py_XDECREF(one);
    return status < 0 || is_foreign ? status : add_each_of(to, layer, NAME_FEATURES, add_feature);
}

static PyObject *write_tile(PyObject *module, PyObject *words, PyObject *named) {
    static char *known[] = {"tile", NULL};
    PyObject *given, *made = NULL;
    if (!PyArg_ParseTupleAndKeywords(words, named, "O:write", known, &given)) return NULL;
    const state *of = state_of_module(module);
    if (PyObject_TypeCheck(given, (PyTypeObject *)of->flat)) {
        const mvt_tile rows = tile_of_flat((flat *)given);
        return written(of, &rows);
    }
    building to = {.of = of};
    if (add_each_of(&to, given, NAME_LAYERS, add_layer) == 0) made = build_finish(&to);
    build_end(&to);
    return made;
}

PyMethodDef WRITING_CALLS[] = {
    {"write", WITH_WORDS(write_tile),
     "write($module, /, tile)\n--\n\n"
     "The canonical bytes of a tile of plain objects, or of flat rows.\n\n"
     "Each number is written as the kind that it is of: a Float, an Int, a Uint or a Sint; a float of Python's own as a\n"
     "double, an int as a uint or, below zero, as a sint; numbers and truths of numpy as what they are. So what `read` gave\n"
     "is written as it was. Raises TypeError for what a tile can't hold, as a Decimal; NoTile for what is no valid tile: a\n"
     "number out of range (OutOfRange), a geometry that can't be drawn, two layers of one name; and TooLarge. What is\n"
     "raised names the layer, the feature and the key."},
    {NULL, NULL, 0, NULL},
};
