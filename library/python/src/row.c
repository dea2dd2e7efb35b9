/* Rows as objects of Python: their fields are those of mvt.h, and lie where the compiler puts them. */
#include "buffer.h"

/* A field: 'I', 'Q' and 'i' are numbers as struct names them, and 'S' is a span. */
typedef struct {
    const char *name;
    size_t at;
    char kind;
} field;

#define KIND_OF(structure, name)                                                                                       \
    _Generic(((structure *)0)->name, uint32_t : 'I', uint64_t : 'Q', int32_t : 'i', mvt_span : 'S')
#define FIELD(structure, name)                                                                                         \
    { #name, offsetof(structure, name), KIND_OF(structure, name) }

static const field SPAN_FIELDS[] = {FIELD(mvt_span, start), FIELD(mvt_span, len), {NULL, 0, 0}};
static const field LAYER_FIELDS[] = {
    FIELD(mvt_layer, version), FIELD(mvt_layer, extent), FIELD(mvt_layer, name),  FIELD(mvt_layer, features),
    FIELD(mvt_layer, keys),    FIELD(mvt_layer, values), FIELD(mvt_layer, bytes), {NULL, 0, 0}};
static const field FEATURE_FIELDS[] = {FIELD(mvt_feature, id),
                                       FIELD(mvt_feature, has_id),
                                       FIELD(mvt_feature, kind),
                                       FIELD(mvt_feature, tags),
                                       FIELD(mvt_feature, parts),
                                       FIELD(mvt_feature, integers),
                                       {NULL, 0, 0}};
static const field VALUE_FIELDS[] = {
    FIELD(mvt_value, kind), FIELD(mvt_value, bits), FIELD(mvt_value, text), {NULL, 0, 0}};
static const field PART_FIELDS[] = {FIELD(mvt_part, exterior), FIELD(mvt_part, points), {NULL, 0, 0}};
static const field POINT_FIELDS[] = {FIELD(mvt_point, x), FIELD(mvt_point, y), {NULL, 0, 0}};

enum { MOST_FIELDS = 8, FORMAT_ROOM = 256 };

static const struct {
    const char *name, *doc;
    const field *fields;
    size_t size;
} STRUCTURES[ROWS] = {
    [SPAN] = {"libmvt.Span", "Rows that belong to another: where they begin in the list of their kind, and how many.",
              SPAN_FIELDS, sizeof(mvt_span)},
    [LAYER] = {"libmvt.LayerRow", "A layer: mvt_layer of mvt.h.", LAYER_FIELDS, sizeof(mvt_layer)},
    [FEATURE] = {"libmvt.FeatureRow", "A feature: mvt_feature of mvt.h.", FEATURE_FIELDS, sizeof(mvt_feature)},
    [VALUE] = {"libmvt.ValueRow", "A value: mvt_value of mvt.h.", VALUE_FIELDS, sizeof(mvt_value)},
    [PART] = {"libmvt.PartRow", "A line, a ring or points: mvt_part of mvt.h.", PART_FIELDS, sizeof(mvt_part)},
    [POINT] = {"libmvt.PointRow", "A position: mvt_point of mvt.h.", POINT_FIELDS, sizeof(mvt_point)},
};

size_t row_size(int kind) { return STRUCTURES[kind].size; }

static size_t field_size(const field *of) { return of->kind == 'S' ? sizeof(mvt_span) : of->kind == 'Q' ? 8 : 4; }

/* A structure's format as memoryview and numpy read it, each gap said. Answers the end of the text. */
static char *write_format(char *to, const field *fields, size_t size) {
    size_t at = 0;
    to += sprintf(to, "T{");
    for (; fields->name != NULL; ++fields) {
        if (fields->at != at) to += sprintf(to, "%zux", fields->at - at);
        to = fields->kind == 'S' ? write_format(to, SPAN_FIELDS, sizeof(mvt_span))
                                 : to + sprintf(to, "=%c", fields->kind);
        to += sprintf(to, ":%s:", fields->name);
        at = fields->at + field_size(fields);
    }
    if (at != size) to += sprintf(to, "%zux", size - at);
    return to + sprintf(to, "}");
}

/* What all interpreters read of each kind of row. It is written when the extension is loaded, and never again. */
static char FORMATS[ROWS][FORMAT_ROOM];
static Py_ssize_t SIZES[ROWS];
static PyGetSetDef GETSETS[ROWS][MOST_FIELDS];

const char *row_format(int kind) { return FORMATS[kind]; }

PyObject *new_row(state *of, int kind, PyObject *owner, uint8_t *data, int is_fixed) {
    row *made = (row *)allocated(of->rows[kind]);
    if (made == NULL) return NULL;
    Py_XINCREF(owner);
    made->of = of, made->kind = kind, made->owner = owner, made->data = data, made->is_fixed = is_fixed;
    return (PyObject *)made;
}

static PyObject *get_field(PyObject *self, void *closure) {
    const row *from = (row *)self;
    const field *of = closure;
    uint8_t *at = from->data + of->at;
    uint32_t word;
    uint64_t number;
    int32_t position;
    switch (of->kind) {
    case 'I': return memcpy(&word, at, sizeof word), PyLong_FromUnsignedLong(word);
    case 'Q': return memcpy(&number, at, sizeof number), PyLong_FromUnsignedLongLong(number);
    case 'i': return memcpy(&position, at, sizeof position), PyLong_FromLong(position);
    default: return new_row(from->of, SPAN, from->owner != NULL ? from->owner : self, at, from->is_fixed);
    }
}

/* Copies a row that is given as one, or as a tuple of its fields. */
int row_copied(state *of, int kind, PyObject *given, uint8_t *to) {
    PyObject *made = PyTuple_Check(given) ? PyObject_CallObject(of->rows[kind], given) : given;
    if (made == NULL) return -1;
    const int is_one = PyObject_TypeCheck(made, (PyTypeObject *)of->rows[kind]);
    if (is_one) {
        memmove(to, ((row *)made)->data, STRUCTURES[kind].size);
    } else {
        PyErr_Format(PyExc_TypeError, "a %s is wanted", strchr(STRUCTURES[kind].name, '.') + 1);
    }
    if (made != given) Py_DECREF(made);
    return is_one ? 0 : -1;
}

/* Sets a field. Of a number that is too large the low bits are kept. */
static int set_field(PyObject *self, PyObject *given, void *closure) {
    row *to = (row *)self;
    const field *of = closure;
    if (to->is_fixed) {
        PyErr_SetString(PyExc_TypeError, READ_ONLY);
        return -1;
    }
    if (given == NULL) {
        PyErr_Format(PyExc_TypeError, "%s can't be deleted", of->name);
        return -1;
    }
    if (of->kind == 'S') return row_copied(to->of, SPAN, given, to->data + of->at);
    if (!PyLong_Check(given)) {
        PyErr_Format(PyExc_TypeError, "%s is a whole number, and not %R", of->name, given);
        return -1;
    }
    const uint64_t number = PyLong_AsUnsignedLongLongMask(given);
    if (number == (uint64_t)-1 && PyErr_Occurred()) return -1;
    const uint32_t word = (uint32_t)number;
    if (of->kind == 'Q') {
        memcpy(to->data + of->at, &number, sizeof number);
    } else {
        memcpy(to->data + of->at, &word, sizeof word);
    }
    return 0;
}

static int kind_of_type(const state *of, PyTypeObject *type) {
    int kind = 0;
    while (kind < ROWS - 1 && !PyType_IsSubtype(type, (PyTypeObject *)of->rows[kind])) ++kind;
    return kind;
}

/* Sets the fields that are given by place and by name. */
static int fill(PyObject *self, const field *fields, PyObject *words, PyObject *named) {
    const Py_ssize_t count = PyTuple_Size(words);
    for (Py_ssize_t at = 0; at < count; ++at, ++fields) {
        if (fields->name == NULL) {
            PyErr_SetString(PyExc_TypeError, "too many fields");
            return -1;
        }
        if (set_field(self, PyTuple_GetItem(words, at), (void *)fields) < 0) return -1;
    }
    PyObject *name, *value;
    Py_ssize_t at = 0;
    while (named != NULL && PyDict_Next(named, &at, &name, &value))
        if (PyObject_SetAttr(self, name, value) < 0) return -1;
    return 0;
}

static PyObject *row_new(PyTypeObject *type, PyObject *words, PyObject *named) {
    state *of = state_of_type(type);
    if (of == NULL) return NULL;
    row *made = (row *)allocated((PyObject *)type);
    if (made == NULL) return NULL;
    made->of = of, made->kind = kind_of_type(of, type);
    made->data = PyMem_Calloc(1, STRUCTURES[made->kind].size);
    if (made->data == NULL) {
        Py_DECREF(made);
        return PyErr_NoMemory();
    }
    if (fill((PyObject *)made, STRUCTURES[made->kind].fields, words, named) == 0) return (PyObject *)made;
    Py_DECREF(made);
    return NULL;
}

static void row_dealloc(PyObject *self) {
    row *of = (row *)self;
    if (of->owner == NULL) PyMem_Free(of->data);
    Py_XDECREF(of->owner);
    given_back(self);
}

static PyObject *fields_told(PyObject *self) {
    const field *fields = STRUCTURES[((row *)self)->kind].fields;
    PyObject *told = PyList_New(0);
    for (; told != NULL && fields->name != NULL; ++fields) {
        PyObject *value = get_field(self, (void *)fields);
        if (value == NULL || PyList_Append(told, value) < 0) Py_CLEAR(told);
        Py_XDECREF(value);
    }
    return told;
}

static PyObject *row_compare(PyObject *self, PyObject *other, int how) {
    const row *one = (row *)self, *two = (row *)other;
    if ((how != Py_EQ && how != Py_NE) || !PyObject_TypeCheck(other, Py_TYPE(self))) Py_RETURN_NOTIMPLEMENTED;
    int is_same = 1;
    for (const field *of = STRUCTURES[one->kind].fields; of->name != NULL; ++of)
        is_same &= memcmp(one->data + of->at, two->data + of->at, field_size(of)) == 0;
    return PyBool_FromLong(is_same == (how == Py_EQ));
}

static PyObject *row_repr(PyObject *self) {
    PyObject *name = PyObject_GetAttrString((PyObject *)Py_TYPE(self), "__name__");
    PyObject *told = name == NULL ? NULL : PyUnicode_FromFormat("%U(", name);
    Py_XDECREF(name);
    const field *first = STRUCTURES[((row *)self)->kind].fields;
    for (const field *of = first; told != NULL && of->name != NULL; ++of) {
        PyObject *value = get_field(self, (void *)of);
        const char *before = of == first ? "" : ", ";
        PyObject *more = value == NULL ? NULL : PyUnicode_FromFormat("%U%s%s=%R", told, before, of->name, value);
        Py_XDECREF(value);
        Py_DECREF(told);
        told = more;
    }
    PyObject *all = told == NULL ? NULL : PyUnicode_FromFormat("%U)", told);
    Py_XDECREF(told);
    return all;
}

static PyObject *row_reduce(PyObject *self, PyObject *unused) {
    (void)unused;
    PyObject *told = fields_told(self);
    PyObject *words = told == NULL ? NULL : PyList_AsTuple(told);
    Py_XDECREF(told);
    return words == NULL ? NULL : Py_BuildValue("(ON)", Py_TYPE(self), words);
}

static int row_lends(PyObject *self, buffer *out, int flags) {
    const row *of = (row *)self;
    return lend(out, flags, self, of->data, NULL, &SIZES[of->kind], FORMATS[of->kind], of->is_fixed);
}

static PyMethodDef ROW_METHODS[] = {{"__reduce__", row_reduce, METH_NOARGS, NULL}, {NULL, NULL, 0, NULL}};

/* `_fields_`: the names and the classes of the fields. */
static PyObject *fields_of(const state *of, int kind) {
    PyObject *told = PyList_New(0);
    for (const field *at = STRUCTURES[kind].fields; told != NULL && at->name != NULL; ++at) {
        PyObject *one = Py_BuildValue("(sO)", at->name, at->kind == 'S' ? of->rows[SPAN] : (PyObject *)&PyLong_Type);
        if (one == NULL || PyList_Append(told, one) < 0) Py_CLEAR(told);
        Py_XDECREF(one);
    }
    return told;
}

static void write_getsets(PyGetSetDef *to, const field *fields) {
    for (; fields->name != NULL; ++fields)
        *to++ = (PyGetSetDef){fields->name, get_field, set_field, NULL, (void *)fields};
}

__attribute__((constructor)) static void write_shared(void) {
    for (int kind = 0; kind < ROWS; ++kind) {
        write_format(FORMATS[kind], STRUCTURES[kind].fields, STRUCTURES[kind].size);
        write_getsets(GETSETS[kind], STRUCTURES[kind].fields);
        SIZES[kind] = (Py_ssize_t)STRUCTURES[kind].size;
    }
}

static PyObject *row_type(int kind) {
    PyType_Slot slots[] = {{Py_tp_new, row_new},
                           {Py_tp_dealloc, row_dealloc},
                           {Py_tp_repr, row_repr},
                           {Py_tp_richcompare, row_compare},
                           {Py_tp_hash, PyObject_HashNotImplemented},
                           {Py_tp_methods, ROW_METHODS},
                           {Py_tp_getset, GETSETS[kind]},
                           {Py_tp_doc, (void *)STRUCTURES[kind].doc},
                           {SLOT_GETBUFFER, row_lends},
                           {0, NULL}};
    PyType_Spec spec = {STRUCTURES[kind].name, sizeof(row), 0, Py_TPFLAGS_DEFAULT | Py_TPFLAGS_BASETYPE, slots};
    return PyType_FromSpec(&spec);
}

int add_row_types(PyObject *module, state *of) {
    for (int kind = 0; kind < ROWS; ++kind) {
        of->rows[kind] = row_type(kind);
        if (of->rows[kind] == NULL) return -1;
        PyObject *fields = fields_of(of, kind);
        const char *name = strchr(STRUCTURES[kind].name, '.') + 1;
        const int failed = fields == NULL || PyObject_SetAttrString(of->rows[kind], "_fields_", fields) < 0 ||
                           PyObject_SetAttrString(of->rows[kind], "_module", module) < 0 ||
                           PyObject_SetAttrString(module, name, of->rows[kind]) < 0;
        Py_XDECREF(fields);
        if (failed) return -1;
    }
    return 0;
}
