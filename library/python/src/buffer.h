/* The buffer protocol, which is in CPython's limited API from 3.11 on. Its structure and the number of its slot are the same
 * in 3.9 and 3.10, whose headers leave them out of that API. */
#ifndef MVT_PYTHON_BUFFER_H
#define MVT_PYTHON_BUFFER_H

#include "module.h"

typedef struct {
    void *buf;
    PyObject *obj;
    Py_ssize_t len, itemsize;
    int readonly, ndim;
    char *format;
    Py_ssize_t *shape, *strides, *suboffsets;
    void *internal;
} buffer;

enum { SLOT_GETBUFFER = 1, TO_WRITE = 1, WITH_FORMAT = 4, WITH_SHAPE = 8, WITH_STRIDES = 16 };

#define READ_ONLY "the rows of a tile are read only: libmvt.Rows.from_arrays makes others"

/* Lends the memory of an object: rows of a list, or one row where `shape` is NULL. */
static inline int lend(buffer *out, int flags, PyObject *owner, void *data, Py_ssize_t *shape, Py_ssize_t *size,
                       const char *format, int is_fixed) {
    if (is_fixed && flags & TO_WRITE) {
        out->obj = NULL;
        PyErr_SetString(PyExc_BufferError, READ_ONLY);
        return -1;
    }
    Py_INCREF(owner);
    out->obj = owner, out->buf = data, out->len = *size * (shape == NULL ? 1 : *shape), out->itemsize = *size;
    out->readonly = is_fixed, out->ndim = shape != NULL;
    out->format = flags & WITH_FORMAT ? (char *)format : NULL;
    out->shape = flags & WITH_SHAPE ? shape : NULL;
    out->strides = shape != NULL && flags & WITH_STRIDES ? size : NULL;
    out->suboffsets = NULL, out->internal = NULL;
    return 0;
}

#endif
