/* The part of the Python package that is compiled: it feeds a parser, and makes a list of the events that the library tells. The package loads it
 * by ctypes in _compiled.py, and has its functions from hedrugal_functions.
 *
 * Each is called while the parser's lock is held, but for feed, which takes it. So no other call comes in where code of Python runs in the middle
 * of one, as it does to make an event that wasn't seen before. */
#define _POSIX_C_SOURCE 200809L
#include <stdbool.h>
#include <stdint.h>
#include <string.h>
#include <time.h>
#include "hedrugal.h"
#include "python.h"

/* How many events the library writes at once, how many bytes that they bring, and how many events are found again. */
enum { ROOM = 72, TEXT_ROOM = 512, SEEN = 128 };

/* The calls of the library that is loaded. */
static __typeof__(&hed_parser_feed) parser_feed;
static __typeof__(&hed_parser_next_events) next_events;
static __typeof__(&hed_parser_text) parser_text;
static __typeof__(&hed_parser_drop_text) drop_text;

/* What was made of a struct, which is a bytes object. */
struct seen {
  PyObject *key;
  PyObject *made;
};

/* What a parser tells. */
struct reader {
  hed_parser *parser; /* the struct of a Parser, which outlives this */
  PyObject *acquire; /* of its lock */
  PyObject *release;
  PyObject *check; /* raises what an answer of the library stands for */
  PyObject *error; /* ParseError */
  PyObject *mouse_report; /* MouseReport, and names of its fields */
  PyObject *fields;
  PyObject *x;
  PyObject *y;
  PyObject *told; /* a list of the events that no call has returned */
  struct seen seen[SEEN]; /* each at the place of its struct */
  size_t count; /* how many structs the library wrote */
  size_t at; /* the place of the first of them that isn't told, and that of its bytes */
  size_t text_at;
  hed_event structs[ROOM];
  uint8_t text[TEXT_ROOM];
};

/* The Events of _records.py. */
typedef PyObject events_dict;

/* An answer that no version of the library gives. */
static const hed_status UNKNOWN = 0xffffffff;

/* Raises what an answer stands for that isn't HED_OK. */
static bool is_ok(struct reader *it, hed_status answer) {
  if (answer == HED_OK) return true;
  PyObject *checked = PyObject_CallFunction(it->check, "Is", (unsigned)answer, "parser");
  Py_DecRef(checked);
  return checked != NULL;
}

/* Copies the bytes that the next event brings, and returns how many there are. Those of the library's last event are still there, if there was no
 * room for them. */
static size_t copy_text(struct reader *it, char *out, size_t length) {
  if (length > TEXT_ROOM - it->text_at) return parser_text(it->parser, (uint8_t *)out, length);
  memcpy(out, it->text + it->text_at, length);
  return length;
}

/* A struct, and behind it the bytes that it brings. */
static PyObject *key_of(struct reader *it, const hed_event *event) {
  PyObject *key = PyBytes_FromStringAndSize(NULL, (Py_ssize_t)(sizeof *event + event->text_len));
  char *bytes = key ? PyBytes_AsString(key) : NULL;
  if (!bytes) return NULL;
  memcpy(bytes, event, sizeof *event);
  if (!event->text_len || copy_text(it, bytes + sizeof *event, event->text_len) == event->text_len) return key;
  Py_DecRef(key);
  is_ok(it, UNKNOWN);
  return NULL;
}

static void see(struct seen *seen, PyObject *key, PyObject *made) {
  struct seen before = *seen;
  Py_IncRef(key);
  Py_IncRef(made);
  *seen = (struct seen){ key, made };
  Py_DecRef(before.key);
  Py_DecRef(before.made);
}

/* The place of a struct. It is another for each character of ASCII, and for the reports of most buttons and keys. */
static size_t place_of(const hed_event *event) {
  unsigned key = event->detail + 5u * event->key + 17u * event->modifiers + 3u * event->key_event_kind;
  return (key + event->kind + event->buttons + 11u * event->mouse_kind) % SEEN;
}

/* What is made of a struct. It is found here, or else in the dict, or else made there. */
static PyObject *found(struct reader *it, const hed_event *event, events_dict *events) {
  struct seen *seen = &it->seen[place_of(event)];
  if (seen->key && !event->text_len && memcmp(PyBytes_AsString(seen->key), event, sizeof *event) == 0) {
    Py_IncRef(seen->made);
    return seen->made;
  }
  PyObject *key = key_of(it, event);
  PyObject *made = key ? PyObject_GetItem(events, key) : NULL;
  if (made && !event->text_len) see(seen, key, made);
  Py_DecRef(key);
  return made;
}

static bool set_number(PyObject *fields, PyObject *name, long value) {
  PyObject *number = PyLong_FromLong(value);
  bool is_set = number && PyDict_SetItem(fields, name, number) == 0;
  Py_DecRef(number);
  return is_set;
}

/* The fields of a mouse report. Those of all reports at no place are found again. */
static PyObject *mouse_fields(struct reader *it, const hed_event *event, events_dict *events) {
  hed_event at_no_place = *event;
  at_no_place.x = at_no_place.y = 0;
  PyObject *others = found(it, &at_no_place, events);
  PyObject *fields = others ? PyDict_Copy(others) : NULL;
  Py_DecRef(others);
  if (!fields || (set_number(fields, it->x, event->x) && set_number(fields, it->y, event->y))) return fields;
  Py_DecRef(fields);
  return NULL;
}

/* A mouse that is moved brings many reports, and a frozen dataclass is slow to make. So a report gets its fields at once. */
static PyObject *mouse_report(struct reader *it, const hed_event *event, events_dict *events) {
  PyObject *fields = mouse_fields(it, event, events);
  PyObject *report = fields ? PyType_GenericAlloc(it->mouse_report, 0) : NULL;
  if (report && PyObject_GenericSetAttr(report, it->fields, fields) != 0) {
    Py_DecRef(report);
    report = NULL;
  }
  Py_DecRef(fields);
  return report;
}

static bool move_struct(struct reader *it, events_dict *events) {
  const hed_event *event = &it->structs[it->at];
  PyObject *made = event->kind == HED_KIND_MOUSE ? mouse_report(it, event, events) : found(it, event, events);
  if (!made) return false;
  bool is_told = PyList_Append(it->told, made) == 0;
  Py_DecRef(made);
  if (!is_told) return false;
  it->text_at += event->text_len;
  if (it->text_at > TEXT_ROOM) drop_text(it->parser);
  it->at++;
  return true;
}

/* Lets other threads run, and handlers of signals, as Python does between two lines. */
static bool has_paused(void) {
  PyEval_RestoreThread(PyEval_SaveThread());
  return PyErr_CheckSignals() == 0;
}

/* Moves all events to those that are told. What memory is refused for stays where it is, and comes next. */
static bool move_events(struct reader *it, events_dict *events) {
  hed_status answer = HED_OK;
  for (;;) {
    while (it->at < it->count) {
      if (!move_struct(it, events)) return false;
    }
    if (answer != HED_OK) return answer == HED_NONE || is_ok(it, answer);
    it->at = it->text_at = 0;
    answer = next_events(it->parser, it->structs, ROOM, it->text, TEXT_ROOM, &it->count);
    if (answer == HED_OK && !has_paused()) return false;
  }
}

/* Raises a ParseError in the place of a MemoryError. Returns whether there was memory for it, with the events so far. */
static bool has_parse_error(struct reader *it, bool is_taken) {
  if (!PyErr_ExceptionMatches(PyExc_MemoryError)) return false;
  PyErr_Clear();
  PyObject *taken = PyBool_FromLong(is_taken);
  PyObject *error = PyObject_CallFunction(it->error, "OO", it->told, taken);
  Py_DecRef(taken);
  if (!error) return false;
  PyErr_SetObject(it->error, error);
  Py_DecRef(error);
  return true;
}

/* What is fed. */
struct fed {
  const uint8_t *bytes;
  size_t length;
  uint64_t now;
};

static bool is_taken(struct reader *it, events_dict *events, const struct fed *fed) {
  if (!fed) return true;
  hed_status answer = parser_feed(it->parser, fed->now, fed->bytes, fed->length);
  if (answer == HED_BUSY) {
    if (!move_events(it, events)) return false;
    answer = parser_feed(it->parser, fed->now, fed->bytes, fed->length);
  }
  return is_ok(it, answer);
}

/* Returns all events that are there, after bytes were fed if there are some. */
static PyObject *tell_after(struct reader *it, events_dict *events, const struct fed *fed) {
  PyObject *told = it->told, *none = PyList_New(0);
  if (!none) return NULL;
  bool taken = is_taken(it, events, fed);
  if (taken && move_events(it, events)) {
    it->told = none;
    return told;
  }
  if (has_parse_error(it, taken)) {
    it->told = none;
    none = told;
  }
  Py_DecRef(none);
  return NULL;
}

static bool is_acquired(struct reader *it) {
  PyObject *acquired = PyObject_CallObject(it->acquire, NULL);
  Py_DecRef(acquired);
  return acquired != NULL;
}

/* Keeps the exception that was raised. */
static void release(struct reader *it) {
  PyObject *type, *value, *trace;
  PyErr_Fetch(&type, &value, &trace);
  PyObject *released = PyObject_CallObject(it->release, NULL);
  Py_DecRef(released);
  PyErr_Restore(type, value, trace);
}

/* The milliseconds of time.monotonic(). */
static uint64_t millis_of_clock(void) {
  struct timespec now;
  clock_gettime(CLOCK_MONOTONIC, &now);
  return (uint64_t)now.tv_sec * 1000 + (uint64_t)now.tv_nsec / 1000000;
}

/* feed(reader, events, data, now): the events of bytes, which came at these milliseconds, or now if they are None */
static PyObject *feed(PyObject *self, PyObject *arguments) {
  (void)self;
  PyObject *reader, *events, *data, *now;
  char *bytes;
  Py_ssize_t length;
  if (!PyArg_UnpackTuple(arguments, "feed", 4, 4, &reader, &events, &data, &now)) return NULL;
  struct reader *it = PyCapsule_GetPointer(reader, NULL);
  if (!it || PyBytes_AsStringAndSize(data, &bytes, &length) != 0) return NULL;
  struct fed fed = { (const uint8_t *)bytes, (size_t)length, now == Py_None ? millis_of_clock() : PyLong_AsUnsignedLongLong(now) };
  if (PyErr_Occurred() || !is_acquired(it)) return NULL;
  PyObject *told = tell_after(it, events, &fed);
  release(it);
  return told;
}

/* The reader of a function that is given it and the events. */
static struct reader *reader_of(PyObject *arguments, events_dict **events) {
  PyObject *reader;
  return PyArg_UnpackTuple(arguments, "tell", 2, 2, &reader, events) ? PyCapsule_GetPointer(reader, NULL) : NULL;
}

/* tell(reader, events): the events that are there */
static PyObject *tell(PyObject *self, PyObject *arguments) {
  (void)self;
  events_dict *events;
  struct reader *it = reader_of(arguments, &events);
  return it ? tell_after(it, events, NULL) : NULL;
}

/* keep(reader, events): moves the events that are there to those that the next call tells */
static PyObject *keep(PyObject *self, PyObject *arguments) {
  (void)self;
  events_dict *events;
  struct reader *it = reader_of(arguments, &events);
  return it && move_events(it, events) ? PyBool_FromLong(true) : NULL;
}

/* has_left(reader): whether there are events that no call has returned */
static PyObject *has_left(PyObject *self, PyObject *reader) {
  (void)self;
  struct reader *it = PyCapsule_GetPointer(reader, NULL);
  return it ? PyBool_FromLong(it->at < it->count || PyList_Size(it->told) > 0) : NULL;
}

/* forget(reader): forgets them */
static PyObject *forget(PyObject *self, PyObject *reader) {
  (void)self;
  struct reader *it = PyCapsule_GetPointer(reader, NULL);
  PyObject *none = it ? PyList_New(0) : NULL;
  if (!none) return NULL;
  Py_DecRef(it->told);
  it->told = none;
  it->at = it->count;
  return PyBool_FromLong(true);
}

static void free_reader(struct reader *it) {
  PyObject *owned[] = { it->acquire, it->release, it->check, it->error, it->mouse_report, it->fields, it->x, it->y, it->told };
  for (size_t place = 0; place < sizeof owned / sizeof *owned; place++) Py_DecRef(owned[place]);
  for (size_t place = 0; place < SEEN; place++) {
    Py_DecRef(it->seen[place].key);
    Py_DecRef(it->seen[place].made);
  }
  PyMem_Free(it);
}

static void free_capsule(PyObject *capsule) {
  free_reader(PyCapsule_GetPointer(capsule, NULL));
}

static PyObject *kept(PyObject *object) {
  Py_IncRef(object);
  return object;
}

/* reader(address, lock, check, error, mouse_report): a reader for the struct of a parser at this address */
static PyObject *reader(PyObject *self, PyObject *arguments) {
  (void)self;
  PyObject *address, *lock, *check, *error, *report;
  if (!PyArg_UnpackTuple(arguments, "reader", 5, 5, &address, &lock, &check, &error, &report)) return NULL;
  struct reader *it = PyMem_Malloc(sizeof *it);
  if (!it) return PyErr_NoMemory();
  memset(it, 0, sizeof *it);
  it->parser = PyLong_AsVoidPtr(address);
  it->check = kept(check);
  it->error = kept(error);
  it->mouse_report = kept(report);
  bool has_all = (it->acquire = PyObject_GetAttrString(lock, "acquire")) && (it->release = PyObject_GetAttrString(lock, "release"))
                 && (it->fields = PyUnicode_InternFromString("__dict__")) && (it->x = PyUnicode_InternFromString("x"))
                 && (it->y = PyUnicode_InternFromString("y")) && (it->told = PyList_New(0));
  PyObject *capsule = has_all ? PyCapsule_New(it, NULL, free_capsule) : NULL;
  if (!capsule) free_reader(it);
  return capsule;
}

static PyMethodDef functions[] = {
  { "reader", reader, METH_VARARGS, NULL }, { "feed", feed, METH_VARARGS, NULL },   { "tell", tell, METH_VARARGS, NULL },
  { "keep", keep, METH_VARARGS, NULL },     { "has_left", has_left, METH_O, NULL }, { "forget", forget, METH_O, NULL },
};

/* The functions, in this order, over these calls of the library: what _compiled.py calls. */
__attribute__((visibility("default"))) PyObject *hedrugal_functions(void *feed_call, void *next_events_call, void *text_call,
                                                                    void *drop_text_call) {
  parser_feed = feed_call;
  next_events = next_events_call;
  parser_text = text_call;
  drop_text = drop_text_call;
  PyObject *list = PyList_New(0);
  bool has_all = list != NULL;
  for (size_t place = 0; has_all && place < sizeof functions / sizeof *functions; place++) {
    PyObject *function = PyCFunction_NewEx(&functions[place], NULL, NULL);
    has_all = function && PyList_Append(list, function) == 0;
    Py_DecRef(function);
  }
  if (has_all) return list;
  Py_DecRef(list);
  return NULL;
}
