/* The module libmvt._mvt: what an interpreter has of it. */
#include "module.h"

static int execute(PyObject *module);
static int traverse(PyObject *module, visitproc visit, void *arg);
static int clear(PyObject *module);

/* Interpreters share nothing of the module, so each may have a lock of its own. Python knows the word for it since 3.12, and
 * refuses words that it doesn't know. The numbers are those of moduleobject.h. */
enum { MULTIPLE_INTERPRETERS = 3, OWN_LOCK = 2 };
static PyModuleDef_Slot SLOTS[] = {{Py_mod_exec, execute}, {MULTIPLE_INTERPRETERS, (void *)OWN_LOCK}, {0, NULL}};
static PyModuleDef_Slot FORMER_SLOTS[] = {{Py_mod_exec, execute}, {0, NULL}};

#define MODULE_OF(slots)                                                                                               \
    {                                                                                                                  \
        PyModuleDef_HEAD_INIT, .m_name = "libmvt._mvt", .m_doc = "The proved library, for the module libmvt.",         \
                               .m_size = sizeof(state), .m_slots = slots, .m_traverse = traverse, .m_clear = clear,    \
    }
static PyModuleDef MODULE = MODULE_OF(SLOTS);
static PyModuleDef FORMER_MODULE = MODULE_OF(FORMER_SLOTS);

PyMODINIT_FUNC PyInit__mvt(void) {
    PyObject *version = PySys_GetObject("hexversion");
    const long number = version == NULL ? 0 : PyLong_AsLong(version);
    if (number == -1 && PyErr_Occurred()) return NULL;
    return PyModuleDef_Init(number >= 0x030C0000 ? &MODULE : &FORMER_MODULE);
}

static int is_this(PyObject *module) {
    if (!PyModule_Check(module)) return 0;
    const PyModuleDef *of = PyModule_GetDef(module);
    return of == &MODULE || of == &FORMER_MODULE;
}

state *state_of_module(PyObject *module) { return PyModule_GetState(module); }

/* A class of this module, and one that is derived from it, has the module as an attribute. */
state *state_of_type(PyTypeObject *type) {
    PyObject *module = PyObject_GetAttrString((PyObject *)type, "_module");
    if (module == NULL) return NULL;
    state *of = is_this(module) ? PyModule_GetState(module) : NULL;
    if (of == NULL) PyErr_SetString(PyExc_TypeError, "the class's attribute _module isn't what it was");
    Py_DECREF(module);
    return of;
}

PyObject *allocated(PyObject *type) { return PyType_GenericAlloc((PyTypeObject *)type, 0); }

/* Ends an object whose memory was allocated so. */
void given_back(PyObject *object) {
    PyTypeObject *type = Py_TYPE(object);
    ((freefunc)PyType_GetSlot(type, Py_tp_free))(object);
    Py_DECREF(type);
}

PyObject *never_new(PyTypeObject *type, PyObject *words, PyObject *named) {
    (void)words, (void)named;
    PyErr_Format(PyExc_TypeError, "%R is made by the calls of libmvt alone", (PyObject *)type);
    return NULL;
}

/* Where the state has an object that is an attribute of one of Python's own modules. */
typedef struct {
    const char *module, *name;
    size_t at;
} wanted;

#define WANTED(module, name, field)                                                                                    \
    { module, name, offsetof(state, field) }

static const wanted CLASSES[] = {
    WANTED("libmvt._tiles", "Tile", tile),           WANTED("libmvt._tiles", "Layer", layer),
    WANTED("libmvt._tiles", "Foreign", foreign),     WANTED("libmvt._tiles", "Feature", feature),
    WANTED("libmvt._values", "Float", single),       WANTED("libmvt._values", "Int", signed_int),
    WANTED("libmvt._values", "Uint", uint),          WANTED("libmvt._values", "Sint", sint),
    WANTED("libmvt._errors", "MvtError", error),     WANTED("libmvt._errors", "Refused", refused),
    WANTED("libmvt._errors", "TooLarge", too_large), WANTED("libmvt._errors", "NoLayer", no_layer),
    WANTED("libmvt._errors", "NoTile", no_tile),     WANTED("libmvt._errors", "OutOfRange", out_of_range),
    WANTED("gc", "isenabled", is_collecting),        WANTED("gc", "get_threshold", thresholds),
    WANTED("gc", "set_threshold", set_thresholds),   WANTED("gc", "collect", collect),
};

static PyObject **field_at(state *of, size_t at) { return (PyObject **)((char *)of + at); }

static int find_classes(state *of) {
    for (size_t i = 0; i < sizeof CLASSES / sizeof *CLASSES; ++i) {
        PyObject *module = PyImport_ImportModule(CLASSES[i].module);
        PyObject *found = module == NULL ? NULL : PyObject_GetAttrString(module, CLASSES[i].name);
        Py_XDECREF(module);
        if (found == NULL) return -1;
        *field_at(of, CLASSES[i].at) = found;
    }
    of->new_feature = (newfunc)PyType_GetSlot((PyTypeObject *)of->feature, Py_tp_new);
    of->new_float = PyObject_GetAttrString((PyObject *)&PyFloat_Type, "__new__");
    of->no_words = PyTuple_New(0);
    of->young = Py_BuildValue("(i)", 1);
    return of->new_float == NULL || of->no_words == NULL || of->young == NULL ? -1 : 0;
}

static int make_names(state *of) {
    static const char *const names[NAMES] = {"id",       "attributes", "kind",  "geometry", "name", "extent",
                                             "features", "version",    "bytes", "layers",   "bits"};
    static const char *const kinds[] = {"unknown", "points", "lines", "polygons"};
    for (int at = 0; at < NAMES; ++at)
        if ((of->names[at] = PyUnicode_InternFromString(names[at])) == NULL) return -1;
    for (int at = 0; at < 4; ++at)
        if ((of->kinds[at] = PyUnicode_InternFromString(kinds[at])) == NULL) return -1;
    return 0;
}

static int add_type(PyObject *module, PyObject **to, PyType_Spec *spec) {
    *to = PyType_FromSpec(spec);
    if (*to == NULL || PyObject_SetAttrString(*to, "_module", module) < 0) return -1;
    return PyObject_SetAttrString(module, strrchr(spec->name, '.') + 1, *to);
}

static int execute(PyObject *module) {
    state *of = PyModule_GetState(module);
    if (find_classes(of) < 0 || make_names(of) < 0 || add_row_types(module, of) < 0) return -1;
    if (add_type(module, &of->list, &LIST_SPEC) < 0 || add_type(module, &of->held, &HELD_SPEC) < 0 ||
        add_type(module, &of->flat, &FLAT_SPEC) < 0 || add_type(module, &of->builder, &BUILDER_SPEC) < 0 ||
        add_type(module, &of->decoder, &DECODER_SPEC) < 0)
        return -1;
    PyMethodDef *const calls[] = {CALLS,         REMARKS_CALLS, AROUND_CALLS, SIZES_CALLS,
                                  READING_CALLS, ROWS_CALLS,    WRITING_CALLS};
    for (size_t i = 0; i < sizeof calls / sizeof *calls; ++i)
        if (PyModule_AddFunctions(module, calls[i]) < 0) return -1;
    return 0;
}

/* The objects of a state stand one after the other, from the first up to the pointer that is none. */
enum { OBJECTS = offsetof(state, new_feature) / sizeof(PyObject *) };

static int traverse(PyObject *module, visitproc visit, void *arg) {
    PyObject **objects = PyModule_GetState(module);
    for (size_t at = 0; objects != NULL && at < OBJECTS; ++at) Py_VISIT(objects[at]);
    return 0;
}

static int clear(PyObject *module) {
    PyObject **objects = PyModule_GetState(module);
    for (size_t at = 0; objects != NULL && at < OBJECTS; ++at) Py_CLEAR(objects[at]);
    return 0;
}
