/* What reader.c calls of Python. All of it is in the stable ABI of Python 3.9 (Py_LIMITED_API 0x03090000). Python's own header isn't taken: it
 * is another for each processor and version, and with it the bytes that a compiler makes. No layout of an object is known here, so a Python
 * without a global lock will do too. */
#ifndef HEDRUGAL_PYTHON_H
#define HEDRUGAL_PYTHON_H
#include <sys/types.h>

typedef struct _object PyObject;
typedef struct _ts PyThreadState;
typedef ssize_t Py_ssize_t;
typedef PyObject *(*PyCFunction)(PyObject *self, PyObject *arguments);
typedef void (*PyCapsule_Destructor)(PyObject *capsule);

typedef struct PyMethodDef {
  const char *name;
  PyCFunction call;
  int flags;
  const char *doc;
} PyMethodDef;

enum { METH_VARARGS = 1, METH_O = 8 };

extern PyObject *PyExc_MemoryError;
extern PyObject _Py_NoneStruct;
#define Py_None (&_Py_NoneStruct)

/* A PyObject * that is returned is a reference of the caller's own, and NULL if an exception was raised. An int is 0, and -1 if one was raised, but
 * for PyErr_ExceptionMatches and PyArg_UnpackTuple. */
void Py_IncRef(PyObject *object);
void Py_DecRef(PyObject *object); /* does nothing with NULL */
PyThreadState *PyEval_SaveThread(void);
void PyEval_RestoreThread(PyThreadState *state);
PyObject *PyErr_Occurred(void);
int PyErr_CheckSignals(void);
int PyErr_ExceptionMatches(PyObject *type);
void PyErr_Clear(void);
PyObject *PyErr_NoMemory(void);
void PyErr_SetObject(PyObject *type, PyObject *value);
void PyErr_Fetch(PyObject **type, PyObject **value, PyObject **trace);
void PyErr_Restore(PyObject *type, PyObject *value, PyObject *trace);
void *PyMem_Malloc(size_t size);
void PyMem_Free(void *block);
PyObject *PyBool_FromLong(long value);
PyObject *PyLong_FromLong(long value);
unsigned long long PyLong_AsUnsignedLongLong(PyObject *number);
void *PyLong_AsVoidPtr(PyObject *number);
PyObject *PyUnicode_InternFromString(const char *text);
PyObject *PyBytes_FromStringAndSize(const char *bytes, Py_ssize_t length);
char *PyBytes_AsString(PyObject *bytes);
int PyBytes_AsStringAndSize(PyObject *object, char **bytes, Py_ssize_t *length);
PyObject *PyList_New(Py_ssize_t length);
Py_ssize_t PyList_Size(PyObject *list);
int PyList_Append(PyObject *list, PyObject *item);
PyObject *PyDict_Copy(PyObject *dict);
int PyDict_SetItem(PyObject *dict, PyObject *key, PyObject *value);
PyObject *PyObject_GetItem(PyObject *object, PyObject *key);
PyObject *PyObject_GetAttrString(PyObject *object, const char *name);
int PyObject_GenericSetAttr(PyObject *object, PyObject *name, PyObject *value);
PyObject *PyObject_CallObject(PyObject *callable, PyObject *arguments);
PyObject *PyObject_CallFunction(PyObject *callable, const char *format, ...);
PyObject *PyType_GenericAlloc(PyObject *type, Py_ssize_t items);
int PyArg_UnpackTuple(PyObject *arguments, const char *name, Py_ssize_t least, Py_ssize_t most, ...);
PyObject *PyCFunction_NewEx(PyMethodDef *method, PyObject *self, PyObject *module);
PyObject *PyCapsule_New(void *pointer, const char *name, PyCapsule_Destructor destructor);
void *PyCapsule_GetPointer(PyObject *capsule, const char *name);
#endif
