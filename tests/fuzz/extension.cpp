// The Python module for libFuzzer, with its extension's sources in this program: extension.py says what bytes mean.
#define PY_SSIZE_T_CLEAN
#include <Python.h>

#include <cstdint>
#include <cstdlib>

extern "C" PyObject *PyInit__mvt();

namespace {

PyObject *one = nullptr;

/// Ends the program where something was raised that isn't caught.
PyObject *require(PyObject *made) {
    if (made != nullptr) return made;
    PyErr_Print();
    std::abort();
}

} // namespace

extern "C" int LLVMFuzzerInitialize(int *, char ***) {
    PyImport_AppendInittab("libmvt._mvt", PyInit__mvt);
    Py_InitializeEx(0);
    PyObject *program = require(PyImport_ImportModule("extension"));
    one = require(PyObject_GetAttrString(program, "one"));
    Py_DECREF(program);
    return 0;
}

extern "C" int LLVMFuzzerTestOneInput(const std::uint8_t *data, std::size_t size) {
    Py_DECREF(
        require(PyObject_CallFunction(one, "y#", reinterpret_cast<const char *>(data), static_cast<Py_ssize_t>(size))));
    return 0;
}
