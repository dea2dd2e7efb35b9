/* Rows: a tile as flat rows. */
#include "module.h"

#include <stdlib.h>

const uint8_t *rows_at(const mvt_tile *tile, int kind) {
    const uint8_t *rows;
    memcpy(&rows, (const char *)tile + LIST_KINDS[kind].at, sizeof rows);
    return rows;
}

size_t count_at(const mvt_tile *tile, int kind) {
    size_t count;
    memcpy(&count, (const char *)tile + LIST_KINDS[kind].count_at, sizeof count);
    return count;
}

static void put_at(mvt_tile *tile, int kind, const void *rows, size_t count) {
    memcpy((char *)tile + LIST_KINDS[kind].at, &rows, sizeof rows);
    memcpy((char *)tile + LIST_KINDS[kind].count_at, &count, sizeof count);
}

/* Rows over what an owner holds. The owner, of which this takes a reference, may be NULL after an error. */
PyObject *flat_of(state *of, held *owner) {
    flat *made = owner == NULL ? NULL : (flat *)allocated(of->flat);
    if (made != NULL) made->of = of;
    for (int kind = 0; made != NULL && kind < LISTS; ++kind) {
        const size_t count = count_at(&owner->tile, kind);
        made->lists[kind] = (PyObject *)new_list(of, kind, (PyObject *)owner, rows_at(&owner->tile, kind), count);
        if (made->lists[kind] == NULL) Py_CLEAR(made);
    }
    Py_XDECREF(owner);
    return (PyObject *)made;
}

/* Copies a list to memory of malloc. */
static int copy_list(mvt_tile *to, int kind, const void *rows, size_t count) {
    if (count == 0) return 0;
    void *copy = malloc(count * LIST_KINDS[kind].size);
    if (copy == NULL) return PyErr_NoMemory(), -1;
    memcpy(copy, rows, count * LIST_KINDS[kind].size);
    put_at(to, kind, copy, count);
    return 0;
}

PyObject *flat_copied(state *of, const mvt_tile *tile) {
    held *owner = new_held(of);
    for (int kind = 0; owner != NULL && kind < LISTS; ++kind)
        if (copy_list(&owner->tile, kind, rows_at(tile, kind), count_at(tile, kind)) < 0) Py_CLEAR(owner);
    return flat_of(of, owner);
}

/* Rows of the bytes of each list, by its name. */
static PyObject *flat_of_contents(state *of, PyObject *contents) {
    held *owner = new_held(of);
    for (int kind = 0; owner != NULL && kind < LISTS; ++kind) {
        PyObject *content = PyMapping_GetItemString(contents, LIST_KINDS[kind].name);
        char *data = NULL;
        Py_ssize_t size = 0;
        if (content == NULL || PyBytes_AsStringAndSize(content, &data, &size) < 0 ||
            copy_list(&owner->tile, kind, data, (size_t)size / LIST_KINDS[kind].size) < 0)
            Py_CLEAR(owner);
        Py_XDECREF(content);
    }
    return flat_of(of, owner);
}

mvt_tile tile_of_flat(const flat *rows) {
    mvt_tile tile = {0};
    for (int kind = 0; kind < LISTS; ++kind) {
        const list *from = (const list *)rows->lists[kind];
        put_at(&tile, kind, from->data, (size_t)from->count);
    }
    return tile;
}

static void flat_dealloc(PyObject *self) {
    flat *of = (flat *)self;
    if (of->weak != NULL) PyObject_ClearWeakRefs(self);
    for (int kind = 0; kind < LISTS; ++kind) Py_XDECREF(of->lists[kind]);
    given_back(self);
}

/* The bytes of a span, cut where the texts end. */
static void cut(const flat *of, int kind, mvt_span span, const uint8_t **from, Py_ssize_t *count) {
    const list *in = (const list *)of->lists[kind];
    const uint64_t all = (uint64_t)in->count, start = span.start < all ? span.start : all;
    *count = (Py_ssize_t)(span.len < all - start ? span.len : all - start);
    *from = in->data + start * (uint64_t)in->size;
}

static int span_given(const flat *of, int kind, PyObject *given, void *to) {
    return row_copied(of->of, kind, given, to);
}

static PyObject *flat_line(PyObject *self, PyObject *given) {
    mvt_part part;
    const uint8_t *from;
    Py_ssize_t count;
    if (span_given((flat *)self, PART, given, &part) < 0) return NULL;
    cut((flat *)self, POINTS, part.points, &from, &count);
    PyObject *points = PyList_New(count);
    for (Py_ssize_t at = 0; points != NULL && at < count; ++at) {
        mvt_point point;
        memcpy(&point, from + at * (Py_ssize_t)sizeof point, sizeof point);
        PyObject *pair = Py_BuildValue("(ii)", point.x, point.y);
        if (pair == NULL || PyList_SetItem(points, at, pair) < 0) Py_CLEAR(points);
    }
    return points;
}

static PyObject *flat_text(PyObject *self, PyObject *given) {
    mvt_span span;
    const uint8_t *from;
    Py_ssize_t len;
    if (span_given((flat *)self, SPAN, given, &span) < 0) return NULL;
    cut((flat *)self, TEXTS, span, &from, &len);
    return PyUnicode_DecodeUTF8((const char *)from, len, NULL);
}

static PyObject *flat_content(PyObject *self, PyObject *given) {
    mvt_span span;
    const uint8_t *from;
    Py_ssize_t len;
    if (span_given((flat *)self, SPAN, given, &span) < 0) return NULL;
    cut((flat *)self, TEXTS, span, &from, &len);
    return PyBytes_FromStringAndSize((const char *)from, len);
}

/* Calls a function of a module that wants numpy. */
static PyObject *of_numpy(const char *name, const char *function, PyObject *words) {
    PyObject *module = words == NULL ? NULL : PyImport_ImportModule(name);
    PyObject *call = module == NULL ? NULL : PyObject_GetAttrString(module, function);
    PyObject *made = call == NULL ? NULL : PyObject_CallObject(call, words);
    Py_XDECREF(call);
    Py_XDECREF(module);
    Py_XDECREF(words);
    return made;
}

static PyObject *flat_array(PyObject *self, PyObject *words, PyObject *named) {
    static char *known[] = {"name", NULL};
    PyObject *name;
    if (!PyArg_ParseTupleAndKeywords(words, named, "U:array", known, &name)) return NULL;
    PyObject *rows = PyObject_GetAttr(self, name);
    return rows == NULL ? NULL : of_numpy("libmvt._arrays", "array_over", Py_BuildValue("(ON)", name, rows));
}

static PyObject *flat_frame(PyObject *self, PyObject *words, PyObject *named) {
    static char *known[] = {"layer", "keys", NULL};
    PyObject *layer, *keys = Py_None;
    if (!PyArg_ParseTupleAndKeywords(words, named, "O|O:frame", known, &layer, &keys)) return NULL;
    return of_numpy("libmvt._frames", "frame_of", Py_BuildValue("(OOO)", self, layer, keys));
}

static PyObject *flat_from_arrays(PyObject *type, PyObject *words, PyObject *named) {
    if (PyTuple_Size(words) != 0) {
        PyErr_SetString(PyExc_TypeError, "from_arrays() takes each array by the name of its list");
        return NULL;
    }
    state *of = state_of_type((PyTypeObject *)type);
    PyObject *arrays = of == NULL ? NULL : named != NULL ? PyDict_Copy(named) : PyDict_New();
    PyObject *contents =
        arrays == NULL ? NULL : of_numpy("libmvt._arrays", "contents_of", Py_BuildValue("(N)", arrays));
    PyObject *made = contents == NULL ? NULL : flat_of_contents(of, contents);
    Py_XDECREF(contents);
    return made;
}

static PyObject *flat_reduce(PyObject *self, PyObject *unused) {
    (void)unused;
    const flat *of = (flat *)self;
    PyObject *contents = PyDict_New();
    for (int kind = 0; contents != NULL && kind < LISTS; ++kind) {
        const list *from = (const list *)of->lists[kind];
        PyObject *content = PyBytes_FromStringAndSize((const char *)from->data, from->count * from->size);
        if (content == NULL || PyDict_SetItemString(contents, LIST_KINDS[kind].name, content) < 0) Py_CLEAR(contents);
        Py_XDECREF(content);
    }
    PyObject *module = contents == NULL ? NULL : PyObject_GetAttrString((PyObject *)Py_TYPE(self), "_module");
    PyObject *call = module == NULL ? NULL : PyObject_GetAttrString(module, "rows_of");
    Py_XDECREF(module);
    if (call != NULL) return Py_BuildValue("(N(N))", call, contents);
    Py_XDECREF(contents);
    return NULL;
}

static PyObject *flat_buffers(PyObject *self, PyObject *unused) {
    (void)unused;
    const flat *of = (flat *)self;
    PyObject *told = PyTuple_New(LISTS);
    for (int kind = 0; told != NULL && kind < LISTS; ++kind) {
        const list *from = (const list *)of->lists[kind];
        PyObject *bytes = lent_of(of->of, from->owner, from->data, (size_t)(from->count * from->size));
        if (bytes == NULL || PyTuple_SetItem(told, kind, bytes) < 0) Py_CLEAR(told);
    }
    return told;
}

static PyObject *rows_of(PyObject *module, PyObject *contents) {
    return flat_of_contents(state_of_module(module), contents);
}

PyMethodDef ROWS_CALLS[] = {
    {"rows_of", rows_of, METH_O,
     "rows_of($module, contents, /)\n--\n\nRows of the bytes of each list, which are copied."},
    {NULL, NULL, 0, NULL},
};

static PyMethodDef FLAT_METHODS[] = {
    {"line", flat_line, METH_O, "line($self, part, /)\n--\n\nThe points of a part."},
    {"text", flat_text, METH_O, "text($self, span, /)\n--\n\nA text, such as the name of a layer or a key."},
    {"content", flat_content, METH_O,
     "content($self, span, /)\n--\n\nA part of the texts, such as the bytes of a layer of another version."},
    {"array", WITH_WORDS(flat_array),
     "array($self, name)\n--\n\nOne list as a numpy array over the same memory, with the names of the fields of its rows."},
    {"frame", WITH_WORDS(flat_frame),
     "frame($self, layer, keys=None)\n--\n\n"
     "The features of a layer of version 2, which is named or given as its row, as columns of numpy: an array for each\n"
     "key, or for each of `keys`, and arrays of the ids and the geometries. Raises NoLayer, and MemoryError where there\n"
     "are too many columns for all to be made."},
    {"from_arrays", (PyCFunction)(void (*)(void))flat_from_arrays, METH_VARARGS | METH_KEYWORDS | METH_CLASS,
     "from_arrays($type, /, **arrays)\n--\n\n"
     "Rows made of numpy arrays (or of what numpy makes arrays of), one for each list, by the name of the list.\n\n"
     "The fields of an array of rows are those of `libmvt.dtype(name)`. Keys, parts and points may also be given as\n"
     "numbers, with a row for each and a column for each number: `points` as x and y. `texts` may be bytes. A list\n"
     "that isn't named is empty. The arrays are copied. Raises OverflowError for a number that a row has no room for."},
    {"buffers", flat_buffers, METH_NOARGS,
     "buffers($self)\n--\n\nThe bytes of each list, in the order of mvt_tile, over the library's memory."},
    {"__reduce__", flat_reduce, METH_NOARGS, NULL},
    {NULL, NULL, 0, NULL},
};

static PyObject *get_list(PyObject *self, void *closure) {
    PyObject *rows = ((flat *)self)->lists[(const list_kind *)closure - LIST_KINDS];
    Py_INCREF(rows);
    return rows;
}

#define LIST_OF(kind, name)                                                                                            \
    { name, get_list, NULL, NULL, (void *)&LIST_KINDS[kind] }

static PyGetSetDef FLAT_LISTS[] = {
    LIST_OF(LAYERS, "layers"), LIST_OF(FEATURES, "features"),  LIST_OF(KEYS, "keys"),     LIST_OF(VALUES, "values"),
    LIST_OF(TAGS, "tags"),     LIST_OF(PARTS, "parts"),        LIST_OF(POINTS, "points"), LIST_OF(INTEGERS, "integers"),
    LIST_OF(TEXTS, "texts"),   {NULL, NULL, NULL, NULL, NULL},
};

static const char FLAT_DOC[] =
    "The flat rows of a tile, as `mvt.h` tells them.\n\n"
    "`layers`, `features`, `keys`, `values`, `tags`, `parts`, `points`, `integers` and `texts` are lists over the\n"
    "library's memory, and buffers: `memoryview` and numpy take them as they are. The memory lasts as long as this\n"
    "object, one of these lists, a row of them or an array over them.";

static PyMemberDef FLAT_MEMBERS[] = {WEAK_MEMBER(flat), {NULL, 0, 0, 0, NULL}};

static PyType_Slot FLAT_SLOTS[] = {{Py_tp_new, never_new},
                                   {Py_tp_dealloc, flat_dealloc},
                                   {Py_tp_methods, FLAT_METHODS},
                                   {Py_tp_getset, FLAT_LISTS},
                                   {Py_tp_members, FLAT_MEMBERS},
                                   {Py_tp_doc, (void *)FLAT_DOC},
                                   {0, NULL}};
PyType_Spec FLAT_SPEC = {"libmvt.Rows", sizeof(flat), 0, Py_TPFLAGS_DEFAULT, FLAT_SLOTS};
