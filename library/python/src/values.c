/* Values, texts and numbers, from Python to the library and back. */
#include "module.h"

/* From rows */

PyObject *text_read(const mvt_tile *tile, mvt_span span) {
    const char *texts = span.len == 0 ? "" : (const char *)tile->texts + span.start;
    return PyUnicode_DecodeUTF8(texts, (Py_ssize_t)span.len, NULL);
}

/* A float that remembers its pattern. */
static PyObject *single_of(const state *of, uint32_t bits) {
    float number;
    memcpy(&number, &bits, sizeof number);
    PyObject *value = PyFloat_FromDouble(number), *pattern = PyLong_FromUnsignedLong(bits), *made = NULL;
    if (value != NULL && pattern != NULL) made = PyObject_CallFunctionObjArgs(of->new_float, of->single, value, NULL);
    if (made != NULL && PyObject_SetAttr(made, of->names[NAME_BITS], pattern) < 0) Py_CLEAR(made);
    Py_XDECREF(value);
    Py_XDECREF(pattern);
    return made;
}

/* A number of a class of its own. The number, of which this takes a reference, may be NULL after an error. */
static PyObject *number_of(PyObject *class, PyObject *number) {
    PyObject *made = number == NULL ? NULL : PyObject_CallFunctionObjArgs(class, number, NULL);
    Py_XDECREF(number);
    return made;
}

PyObject *value_read(const state *of, const mvt_tile *tile, const mvt_value *row) {
    double number;
    switch (row->kind) {
    case MVT_TEXT: return text_read(tile, row->text);
    case MVT_FLOAT: return single_of(of, (uint32_t)row->bits);
    case MVT_DOUBLE: return memcpy(&number, &row->bits, sizeof number), PyFloat_FromDouble(number);
    case MVT_BOOL: return PyBool_FromLong(row->bits != 0);
    case MVT_UINT: return number_of(of->uint, PyLong_FromUnsignedLongLong(row->bits));
    case MVT_SINT: return number_of(of->sint, PyLong_FromLongLong((int64_t)row->bits));
    default: return number_of(of->signed_int, PyLong_FromLongLong((int64_t)row->bits));
    }
}

/* To what is written */

/* The name of a value's class, with its module where that isn't Python's own. */
static PyObject *class_name(PyObject *value) {
    PyObject *class = (PyObject *)Py_TYPE(value);
    PyObject *module = PyObject_GetAttrString(class, "__module__"),
             *name = PyObject_GetAttrString(class, "__qualname__");
    PyObject *told = NULL;
    if (module != NULL && name != NULL) {
        const int is_own = PyUnicode_Check(module) && PyUnicode_CompareWithASCIIString(module, "builtins") == 0;
        told = is_own ? PyUnicode_FromFormat("%S", name) : PyUnicode_FromFormat("%S.%S", module, name);
    }
    Py_XDECREF(module);
    Py_XDECREF(name);
    return told;
}

static void raise_type(PyObject *value, const char *what) {
    PyObject *name = class_name(value);
    if (name != NULL) PyErr_Format(PyExc_TypeError, "%U is no %s", name, what);
    Py_XDECREF(name);
}

/* The bytes of a text. */
PyObject *encoded(const state *of, PyObject *text) {
    if (!PyUnicode_Check(text)) return raise_type(text, "text"), NULL;
    PyObject *bytes = PyUnicode_AsUTF8String(text);
    if (bytes == NULL && PyErr_ExceptionMatches(PyExc_UnicodeEncodeError)) {
        PyErr_Clear();
        PyErr_SetString(of->no_tile, "a text isn't UTF-8");
    }
    return bytes;
}

static int out_of_range(PyObject *number) {
    PyErr_Format(PyExc_OverflowError, "%S is out of range", number);
    if (PyErr_ExceptionMatches(PyExc_ValueError)) /* of more digits than Python spells */
        PyErr_SetString(PyExc_OverflowError, "a number of thousands of digits is out of range");
    return -1;
}

/* A whole number from 0 to `most`. */
int number_given(PyObject *given, uint64_t most, uint64_t *number) {
    PyObject *whole = PyNumber_Index(given);
    if (whole == NULL) return -1;
    int status = 0;
    *number = PyLong_AsUnsignedLongLong(whole);
    if (PyErr_Occurred()) {
        status = -1;
        if (PyErr_ExceptionMatches(PyExc_OverflowError)) PyErr_Clear(), out_of_range(whole);
    } else if (*number > most) {
        status = out_of_range(whole);
    }
    Py_DECREF(whole);
    return status;
}

/* A whole number that a signed one of 64 bits has room for. */
static int signed_given(PyObject *whole, int64_t *number) {
    int overflow;
    *number = PyLong_AsLongLongAndOverflow(whole, &overflow);
    if (overflow != 0) return out_of_range(whole);
    return *number == -1 && PyErr_Occurred() ? -1 : 0;
}

/* A class of numpy, where that was imported; NULL without an error where it wasn't. */
static PyObject *of_numpy(const char *name) {
    PyObject *modules = PyImport_GetModuleDict(); /* borrowed */
    PyObject *numpy = modules == NULL ? NULL : PyDict_GetItemString(modules, "numpy");
    if (numpy == NULL || numpy == Py_None) return NULL;
    return PyObject_GetAttrString(numpy, name);
}

/* Whether a value is of a class of numpy. */
static int is_of_numpy(PyObject *value, const char *name) {
    PyObject *class = of_numpy(name);
    if (class == NULL) return PyErr_Occurred() ? -1 : 0;
    const int is_one = PyObject_IsInstance(value, class);
    Py_DECREF(class);
    return is_one;
}

/* A float32 of numpy, or a float16 as one, with its pattern. */
static int single_of_numpy(PyObject *value, mvt_any *out) {
    PyObject *class = of_numpy("float32"), *single = NULL, *bytes = NULL;
    uint32_t bits = 0;
    if (class != NULL) single = PyObject_CallFunctionObjArgs(class, value, NULL);
    if (single != NULL) bytes = PyObject_CallMethod(single, "tobytes", NULL);
    const int is_there = bytes != NULL && PyBytes_Check(bytes) && PyBytes_Size(bytes) == sizeof bits;
    if (is_there) memcpy(&bits, PyBytes_AsString(bytes), sizeof bits);
    *out = (mvt_any){MVT_FLOAT, bits, {NULL, 0}};
    Py_XDECREF(bytes);
    Py_XDECREF(single);
    Py_XDECREF(class);
    return is_there ? 0 : -1;
}

static int float_given(const state *of, PyObject *value, mvt_any *out) {
    if (!PyObject_TypeCheck(value, (PyTypeObject *)of->single)) {
        const double number = PyFloat_AsDouble(value);
        *out = mvt_any_double(number);
        return number == -1.0 && PyErr_Occurred() ? -1 : 0;
    }
    PyObject *bits = PyObject_GetAttr(value, of->names[NAME_BITS]);
    if (bits == NULL) return -1;
    *out = (mvt_any){MVT_FLOAT, 0, {NULL, 0}};
    const int status = number_given(bits, UINT64_MAX, &out->bits);
    Py_DECREF(bits);
    return status;
}

/* A whole number as the kind that it is of, or that its sign says. */
static int whole_given(const state *of, PyObject *value, PyObject *whole, mvt_any *out) {
    const int is_int = PyObject_TypeCheck(value, (PyTypeObject *)of->signed_int);
    if (is_int || PyObject_TypeCheck(value, (PyTypeObject *)of->sint)) {
        int64_t number;
        if (signed_given(whole, &number) < 0) return -1;
        *out = is_int ? mvt_any_int(number) : mvt_any_sint(number);
        return 0;
    }
    int overflow;
    const int64_t number = PyLong_AsLongLongAndOverflow(whole, &overflow);
    if (number == -1 && overflow == 0 && PyErr_Occurred()) return -1;
    const int is_below = overflow < 0 || (overflow == 0 && number < 0);
    if (is_below && !PyObject_TypeCheck(value, (PyTypeObject *)of->uint)) {
        *out = mvt_any_sint(number);
        return overflow < 0 ? out_of_range(whole) : 0;
    }
    *out = mvt_any_uint((uint64_t)number);
    if (is_below) return out_of_range(whole);
    return overflow == 0 ? 0 : number_given(whole, UINT64_MAX, &out->bits);
}

/* What isn't one of the commonest classes. */
static int other_given(const state *of, PyObject *value, mvt_any *out) {
    int is_one = is_of_numpy(value, "bool_");
    if (is_one > 0) {
        const int truth = PyObject_IsTrue(value);
        *out = mvt_any_bool(truth);
        return truth < 0 ? -1 : 0;
    }
    if (is_one == 0) is_one = is_of_numpy(value, "float32");
    if (is_one == 0) is_one = is_of_numpy(value, "float16");
    if (is_one != 0) return is_one < 0 ? -1 : single_of_numpy(value, out);
    PyObject *whole = PyNumber_Index(value);
    if (whole == NULL) {
        if (!PyErr_ExceptionMatches(PyExc_TypeError)) return -1;
        PyErr_Clear();
        return raise_type(value, "text, number or truth that a tile can hold"), -1;
    }
    const int status = whole_given(of, value, whole, out);
    Py_DECREF(whole);
    return status;
}

/* A value as the library takes it. Of a text, `text` is what holds its bytes, which the caller gives back. */
int value_given(const state *of, PyObject *value, mvt_any *out, PyObject **text) {
    *text = NULL;
    if (PyUnicode_Check(value)) {
        *text = encoded(of, value);
        if (*text == NULL) return -1;
        *out = (mvt_any){MVT_TEXT, 0, {NULL, 0}};
        out->text.data = content_of(*text, &out->text.len);
        return 0;
    }
    if (PyBool_Check(value)) {
        *out = mvt_any_bool(value == Py_True);
        return 0;
    }
    if (PyFloat_Check(value)) return float_given(of, value, out);
    return PyLong_Check(value) ? whole_given(of, value, value, out) : other_given(of, value, out);
}

/* Lists of numbers */

/* What is given as a list or a tuple. */
PyObject *sequence_given(PyObject *given) {
    if (!PyList_CheckExact(given) && !PyTuple_CheckExact(given)) return PySequence_List(given);
    Py_INCREF(given);
    return given;
}

static Py_ssize_t length_of(PyObject *sequence) {
    return PyList_CheckExact(sequence) ? PyList_Size(sequence) : PyTuple_Size(sequence);
}

/* Borrowed; NULL and an error where it isn't there any more. */
PyObject *item_of(PyObject *sequence, Py_ssize_t at) {
    return PyList_CheckExact(sequence) ? PyList_GetItem(sequence, at) : PyTuple_GetItem(sequence, at);
}

static int position_given(PyObject *given, int32_t *position) {
    PyObject *whole = PyLong_CheckExact(given) ? given : PyNumber_Index(given);
    if (whole == NULL) return -1;
    int overflow;
    const long number = PyLong_AsLongAndOverflow(whole, &overflow);
    int status = number == -1 && overflow == 0 && PyErr_Occurred() ? -1 : 0;
    *position = (int32_t)number;
    if (overflow != 0 || (status == 0 && *position != number)) status = out_of_range(whole);
    if (whole != given) Py_DECREF(whole);
    return status;
}

/* A point that may be any pair of numbers. */
static int any_point_given(PyObject *given, mvt_point *point) {
    const Py_ssize_t size = PyObject_Size(given);
    if (size < 0) return -1;
    PyObject *pair = PySequence_Tuple(given);
    if (pair == NULL) return -1;
    int status = -1;
    if (size != 2 || PyTuple_Size(pair) != 2) {
        PyErr_SetString(PyExc_TypeError, "a point isn't a pair of numbers");
    } else if (position_given(PyTuple_GetItem(pair, 0), &point->x) == 0) {
        status = position_given(PyTuple_GetItem(pair, 1), &point->y);
    }
    Py_DECREF(pair);
    return status;
}

static int point_given(PyObject *given, void *to) {
    mvt_point *point = to;
    if (PyTuple_CheckExact(given) && PyTuple_Size(given) == 2) {
        PyObject *x = PyTuple_GetItem(given, 0), *y = PyTuple_GetItem(given, 1);
        if (PyLong_CheckExact(x) && PyLong_CheckExact(y))
            return position_given(x, &point->x) < 0 ? -1 : position_given(y, &point->y);
    }
    Py_INCREF(given);
    const int status = any_point_given(given, point);
    Py_DECREF(given);
    return status;
}

static int integer_given(PyObject *given, void *to) {
    uint64_t number = 0;
    Py_INCREF(given);
    const int status = number_given(given, UINT32_MAX, &number);
    Py_DECREF(given);
    *(uint32_t *)to = (uint32_t)number;
    return status;
}

/* What each item of a list is taken as, of so many bytes, in memory that PyMem_Free gives back. */
static inline int items_given(PyObject *given, size_t size, int (*take)(PyObject *, void *), void **items,
                              size_t *count) {
    PyObject *sequence = sequence_given(given);
    if (sequence == NULL) return -1;
    const Py_ssize_t length = length_of(sequence);
    int status = 0;
    *count = (size_t)length;
    *items = PyMem_Malloc((size_t)length * size);
    if (*items == NULL) PyErr_NoMemory(), status = -1;
    for (Py_ssize_t at = 0; status == 0 && at < length; ++at) {
        PyObject *item = item_of(sequence, at);
        status = item == NULL ? -1 : take(item, (char *)*items + (size_t)at * size);
    }
    Py_DECREF(sequence);
    if (status < 0) PyMem_Free(*items);
    return status;
}

/* Points of any pairs of numbers, and integers of 32 bits. */
int points_given(PyObject *given, void **points, size_t *count) {
    return items_given(given, sizeof(mvt_point), point_given, points, count);
}

int integers_given(PyObject *given, void **integers, size_t *count) {
    return items_given(given, sizeof(uint32_t), integer_given, integers, count);
}
