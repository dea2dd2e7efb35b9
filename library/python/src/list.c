/* A list of rows: a sequence over memory that its owner keeps, and a buffer for memoryview and numpy. */
#include "buffer.h"

#define ROWS_KIND(structure, list, count, row)                                                                         \
    { #list, sizeof(structure), offsetof(mvt_tile, list), offsetof(mvt_tile, count), row }

const list_kind LIST_KINDS[LISTS] = {
    [LAYERS] = ROWS_KIND(mvt_layer, layers, layer_count, LAYER),
    [FEATURES] = ROWS_KIND(mvt_feature, features, feature_count, FEATURE),
    [KEYS] = ROWS_KIND(mvt_span, keys, key_count, SPAN),
    [VALUES] = ROWS_KIND(mvt_value, values, value_count, VALUE),
    [TAGS] = ROWS_KIND(uint32_t, tags, tag_count, ROWS),
    [PARTS] = ROWS_KIND(mvt_part, parts, part_count, PART),
    [POINTS] = ROWS_KIND(mvt_point, points, point_count, POINT),
    [INTEGERS] = ROWS_KIND(uint32_t, integers, integer_count, ROWS),
    [TEXTS] = ROWS_KIND(uint8_t, texts, text_len, ROWS),
};

list *new_list(state *of, int kind, PyObject *owner, const uint8_t *data, size_t count) {
    static uint8_t nothing[8];
    list *made = (list *)allocated(of->list);
    if (made == NULL) return NULL;
    Py_INCREF(owner);
    made->of = of, made->owner = owner, made->kind = kind;
    made->data = count != 0 ? (uint8_t *)data : nothing;
    made->count = (Py_ssize_t)count, made->size = (Py_ssize_t)LIST_KINDS[kind].size;
    return made;
}

static void list_dealloc(PyObject *self) {
    Py_XDECREF(((list *)self)->owner);
    given_back(self);
}

static Py_ssize_t list_length(PyObject *self) { return ((list *)self)->count; }

static PyObject *list_item(PyObject *self, Py_ssize_t at) {
    const list *of = (list *)self;
    if (at < 0 || at >= of->count) {
        PyErr_SetString(PyExc_IndexError, "there is no such row");
        return NULL;
    }
    uint8_t *data = of->data + at * of->size;
    if (LIST_KINDS[of->kind].row != ROWS) return new_row(of->of, LIST_KINDS[of->kind].row, of->owner, data, 1);
    if (of->size == 1) return PyLong_FromLong(*data);
    uint32_t number;
    memcpy(&number, data, sizeof number);
    return PyLong_FromUnsignedLong(number);
}

/* The index that is meant, which may count from the end; -1 and an error where there is none. */
static Py_ssize_t index_meant(const list *of, PyObject *given) {
    const Py_ssize_t at = PyNumber_AsSsize_t(given, PyExc_IndexError);
    if (at == -1 && PyErr_Occurred()) return -1;
    const Py_ssize_t meant = at < 0 ? at + of->count : at;
    if (meant >= 0 && meant < of->count) return meant;
    PyErr_SetString(PyExc_IndexError, "there is no such row");
    return -1;
}

static PyObject *list_at(PyObject *self, PyObject *given) {
    const list *of = (list *)self;
    if (!PySlice_Check(given)) {
        const Py_ssize_t at = index_meant(of, given);
        return at < 0 ? NULL : list_item(self, at);
    }
    Py_ssize_t start, stop, step;
    if (PySlice_Unpack(given, &start, &stop, &step) < 0) return NULL;
    const Py_ssize_t count = PySlice_AdjustIndices(of->count, &start, &stop, step);
    PyObject *made = PyList_New(count);
    for (Py_ssize_t at = 0; made != NULL && at < count; ++at) {
        PyObject *item = list_item(self, start + at * step);
        if (item == NULL || PyList_SetItem(made, at, item) < 0) Py_CLEAR(made);
    }
    return made;
}

static int list_put(PyObject *self, PyObject *at, PyObject *given) {
    (void)self, (void)at, (void)given;
    PyErr_SetString(PyExc_TypeError, READ_ONLY);
    return -1;
}

static int list_lends(PyObject *self, buffer *out, int flags) {
    list *of = (list *)self;
    const int row = LIST_KINDS[of->kind].row;
    const char *format = row != ROWS ? row_format(row) : of->size == 1 ? "B" : "I";
    return lend(out, flags, self, of->data, &of->count, &of->size, format, 1);
}

static PyType_Slot LIST_SLOTS[] = {
    {Py_tp_new, never_new},          {Py_tp_dealloc, list_dealloc},
    {Py_sq_length, list_length},     {Py_sq_item, list_item},
    {Py_mp_length, list_length},     {Py_mp_subscript, list_at},
    {Py_mp_ass_subscript, list_put}, {Py_tp_doc, "A list of rows over memory that it keeps."},
    {SLOT_GETBUFFER, list_lends},    {0, NULL}};
PyType_Spec LIST_SPEC = {"libmvt._mvt.List", sizeof(list), 0, Py_TPFLAGS_DEFAULT, LIST_SLOTS};

/* Bytes that the owner keeps. */
PyObject *lent_of(state *of, PyObject *owner, const void *data, size_t len) {
    return (PyObject *)new_list(of, TEXTS, owner, data, len);
}

/* The rows of a list as bytes. */
PyObject *rows_told(const void *rows, size_t count, size_t size) {
    return PyBytes_FromStringAndSize(count == 0 ? "" : (const char *)rows, (Py_ssize_t)(count * size));
}

static void held_dealloc(PyObject *self) {
    mvt_tile_free(&((held *)self)->tile);
    given_back(self);
}

held *new_held(const state *of) { return (held *)allocated(of->held); }

static PyType_Slot HELD_SLOTS[] = {{Py_tp_new, never_new}, {Py_tp_dealloc, held_dealloc}, {0, NULL}};
PyType_Spec HELD_SPEC = {"libmvt._mvt.Held", sizeof(held), 0, Py_TPFLAGS_DEFAULT, HELD_SLOTS};
