/* An OCA (AES70) device and a controller's link to one, for C. Link liboca.a, which has both with the heap's calls, or
 * liboca_c.a and a heap of your own: three functions, whose signatures and rules are in c/malloc.c and examples/c/heap.c.
 * Built by `make install-library` it runs on every x86-64, and on every AArch64, with Linux; it needs 64 bits. This header
 * and the files of c/ are C99 (and later), and C++11 (and later).
 *
 * A device is one struct oca_device, and a link one struct oca_link, zeroed before the first call: then it is closed. A
 * call answers OCA_DONE, or another number of enum oca_result. After any number but OCA_DONE do not read what the call
 * would have written, except what comes with OCA_TOO_SMALL by the call's comment. Texts are bytes and a length, in
 * UTF-8. Addresses and ports are in the host's byte order: 127.0.0.1 is 0x7F000001. Moments are in milliseconds, of a
 * clock that does not go back. The profile is the part of AES70 that is here, with rules of its own (docs/PROTOCOL.md). Only
 * oca_store_.., oca_socket_.. and oca_serve.. open a file or a socket or read a clock, and nothing starts a thread.
 *
 * What the caller promises, at every call (no proof sees the C side):
 *  - no pointer is null, even with length 0 (but a close takes a null pointer, and so do other calls where it is said);
 *  - each pointer points to the stated amount of initialized memory: set to zero what a call only writes to;
 *  - no two parameters of a call overlap;
 *  - a bool is 0 or 1;
 *  - the struct is as the last call left it, or zeroed; it may be moved, but never copied and both copies used;
 *  - one call at a time for a struct; another thread may make the next one, ordered by a lock, a start or a join; none from a
 *    signal handler or from the forked child of a process with threads;
 *  - enough stack (docs/EMBEDDING-C.md has figures).
 *
 * Only the calls that open and start take memory, by malloc, realloc and free or by a heap of the program's own, whose blocks are
 * aligned to 16; close gives it back. After OCA_NO_MEMORY from an opening or a start the struct is closed. */
#ifndef OCA_H
#define OCA_H
#include <stdbool.h>
#include <stddef.h>
#include <stdint.h>
#ifdef __cplusplus
extern "C" {
#endif

/* Where the compiler can, it warns of a null pointer and of a result that nobody looks at; for other compilers these are empty. */
#if defined(__GNUC__)
#define OCA_NONNULL __attribute__((nonnull))
#define OCA_CHECKED __attribute__((nonnull, warn_unused_result))
#define OCA_LOOKED_AT __attribute__((warn_unused_result))
#else
#define OCA_NONNULL
#define OCA_CHECKED
#define OCA_LOOKED_AT
#endif

/* Returns the version of the library that is linked, to be compared with OCA_VERSION, the version of this header:
 * 65,536 for each major version, 256 for each minor version, 1 for each patch. A library of the same major version and
 * at least this minor version keeps what this header says. */
#define OCA_VERSION 0x011000u
uint32_t oca_version(void);

enum oca_result {
    OCA_DONE = 0,
    /* Of an addition, the first that applies: no room for another object; the number is below 4,096; it is taken; the container is
     * no block; depth 9; a role that is empty or above 64 bytes; a setting outside its range. Before all of
     * them: more than 16 names (OCA_BAD_RANGE); a name above 64 bytes, a role or a name that is no UTF-8 (OCA_BAD_TEXT). */
    OCA_FULL = 1, OCA_RESERVED = 2, OCA_TAKEN = 3, OCA_NO_SUCH_BLOCK = 4, OCA_TOO_DEEP = 5, OCA_BAD_TEXT = 6, OCA_BAD_RANGE = 7,
    OCA_NO_MEMORY = 8,
    OCA_CLOSED = 9,       /* the struct is closed */
    OCA_OPEN = 10,        /* it is open */
    OCA_NOT_STARTED = 11, /* the device is not started */
    OCA_STARTED = 12,     /* it is, so its tree is fixed */
    OCA_NOTHING = 13,     /* there is no such packet, object, setting, lock, moment or answer */
    OCA_TOO_SMALL = 14,   /* there was no room for all that was to be written, or there might not have been */
    OCA_BAD_SIZE = 15,    /* a room outside 1 to 4,096, a window or a number of peers outside 1 to 64, a room for packets outside 1 to 122, a span outside
                             1 to 32, another struct */
    /* Of a setting at the local front panel, the first that applies: no such object; a block; another kind of value; out of range. */
    OCA_NO_OBJECT = 16, OCA_NO_SETTING = 17, OCA_OTHER_KIND = 18, OCA_OUT_OF_RANGE = 19,
    /* Of a submission, the first that applies: the link is lost; no handle is left; the span is full; above 1,445 bytes, or above 64 where the
     * link is small. */
    OCA_LOST = 20, OCA_HANDLES_SPENT = 21, OCA_SPAN_FULL = 22, OCA_TOO_LONG = 23,
    OCA_NO_VALUE = 24 /* the struct holds no value, or the answer gives no value of the class */
};

/* Returns a result in words, for a log. `result` is a number of enum oca_result; for any other number the words are "a
 * result of a later version". The string is constant: it is not freed. */
static inline const char *oca_result_text(uint32_t result) {
    switch (result) {
    case OCA_DONE: return "done";
    case OCA_FULL: return "there is no room for another object";
    case OCA_RESERVED: return "the number is below 4096";
    case OCA_TAKEN: return "the number is taken";
    case OCA_NO_SUCH_BLOCK: return "the container is no block of the tree";
    case OCA_TOO_DEEP: return "the object would stand at depth 9";
    case OCA_BAD_TEXT: return "a text is empty or has more than 64 bytes";
    case OCA_BAD_RANGE: return "the setting is outside its range";
    case OCA_NO_MEMORY: return "no memory";
    case OCA_CLOSED: return "the struct is closed";
    case OCA_OPEN: return "the struct is open";
    case OCA_NOT_STARTED: return "the device is not started";
    case OCA_STARTED: return "the device is started";
    case OCA_NOTHING: return "there is nothing";
    case OCA_TOO_SMALL: return "there is no room for all";
    case OCA_BAD_SIZE: return "a size is outside its range";
    case OCA_NO_OBJECT: return "there is no such object";
    case OCA_NO_SETTING: return "a block has no setting";
    case OCA_OTHER_KIND: return "the object is set by another kind of value";
    case OCA_OUT_OF_RANGE: return "the value is out of range";
    case OCA_LOST: return "the link is lost";
    case OCA_HANDLES_SPENT: return "no handle is left";
    case OCA_SPAN_FULL: return "the next handle is not below the lowest untaken one plus the span";
    case OCA_TOO_LONG: return "the parameters are too long";
    case OCA_NO_VALUE: return "there is no such value";
    default: return "a result of a later version";
    }
}

/* The most bytes of a datagram and of an answer's parameters, and the most objects that a datagram writes to (a command has at least 17
 * bytes). Room for these always suffices. */
enum { OCA_MOST_BYTES = 1472, OCA_MOST_ANSWER = 1452, OCA_MOST_WRITTEN = 86 };

/* The most datagrams that a device drops after a standstill. */
enum { OCA_DROPPED_AT_MOST = 65536 };

/* ---- numbers of AES70 ---- */

/* The statuses of a response (AES70-2, OcaStatus). */
enum oca_status {
    OCA_STATUS_OK = 0, OCA_STATUS_PROTOCOL_VERSION_ERROR = 1, OCA_STATUS_DEVICE_ERROR = 2, OCA_STATUS_LOCKED = 3, OCA_STATUS_BAD_FORMAT = 4,
    OCA_STATUS_BAD_ONO = 5, OCA_STATUS_PARAMETER_ERROR = 6, OCA_STATUS_PARAMETER_OUT_OF_RANGE = 7, OCA_STATUS_NOT_IMPLEMENTED = 8,
    OCA_STATUS_INVALID_REQUEST = 9, OCA_STATUS_PROCESSING_FAILED = 10, OCA_STATUS_BAD_METHOD = 11, OCA_STATUS_PARTIALLY_SUCCEEDED = 12,
    OCA_STATUS_TIMEOUT = 13, OCA_STATUS_BUFFER_OVERFLOW = 14
};

/* Returns the name of a status (AES70-2, OcaStatus), such as "BadONo" for 5. `status` is 0 to 14. For any other number
 * it returns a null pointer. The string is constant: it is not freed. */
static inline const char *oca_status_text(uint32_t status) {
    static const char *const names[] = {"OK", "ProtocolVersionError", "DeviceError", "Locked", "BadFormat", "BadONo", "ParameterError",
        "ParameterOutOfRange", "NotImplemented", "InvalidRequest", "ProcessingFailed", "BadMethod", "PartiallySucceeded", "Timeout",
        "BufferOverflow"};
    return status < sizeof names / sizeof *names ? names[status] : NULL;
}

/* The methods that a device carries out: the level in the upper 16 bits, the index in the lower ones. State is a mute's and a polarity's,
 * position a switch's, setting a Boolean's and an integer's. Their parameters, in this order, are big-endian: a position 2 bytes, a truth
 * 1 byte (0 or 1), a text as oca_text_put encodes it; docs/PROTOCOL.md, section 3, has those of each method. */
enum oca_method {
    OCA_GET_CLASS_IDENTIFICATION = 0x10001, OCA_GET_LOCKABLE = 0x10002, OCA_LOCK_TOTAL = 0x10003, OCA_UNLOCK = 0x10004, OCA_GET_ROLE = 0x10005,
    OCA_LOCK_READONLY = 0x10006, OCA_GET_ENABLED = 0x20001, OCA_SET_ENABLED = 0x20002, OCA_GET_LABEL = 0x20008, OCA_SET_LABEL = 0x20009,
    OCA_GET_OWNER = 0x2000a, OCA_GET_MEMBERS = 0x30005, OCA_GET_MEMBERS_RECURSIVE = 0x30006, OCA_GET_STATE = 0x40001, OCA_SET_STATE = 0x40002,
    OCA_GET_POSITION = 0x40001, OCA_SET_POSITION = 0x40002, OCA_GET_POSITION_NAME = 0x40003, OCA_SET_POSITION_NAME = 0x40004,
    OCA_GET_POSITION_NAMES = 0x40005, OCA_SET_POSITION_NAMES = 0x40006, OCA_GET_POSITION_ENABLED = 0x40007,
    OCA_SET_POSITION_ENABLED = 0x40008, OCA_GET_POSITION_ENABLEDS = 0x40009, OCA_SET_POSITION_ENABLEDS = 0x4000a,
    OCA_GET_SETTING = 0x50001, OCA_SET_SETTING = 0x50002
};

/* The first fault of a malformed datagram. */
enum oca_fault {
    OCA_FAULT_EMPTY = 1, OCA_FAULT_TOO_LONG = 2, OCA_FAULT_SYNC = 3, OCA_FAULT_VERSION = 4, OCA_FAULT_PDU_SIZE = 5, OCA_FAULT_PDU_TYPE = 6,
    OCA_FAULT_COUNT = 7, OCA_FAULT_MESSAGE_SIZE = 8, OCA_FAULT_TRUNCATED = 9
};

/* The numbers of the classes, by which oca_device_object and oca_panel_class say an object's class. */
enum oca_class {
    OCA_CLASS_BLOCK = 1, OCA_CLASS_MUTE = 2, OCA_CLASS_POLARITY = 3, OCA_CLASS_SWITCH = 4, OCA_CLASS_BOOLEAN = 5, OCA_CLASS_INT8 = 6,
    OCA_CLASS_INT16 = 7, OCA_CLASS_INT32 = 8, OCA_CLASS_INT64 = 9, OCA_CLASS_UINT8 = 10, OCA_CLASS_UINT16 = 11, OCA_CLASS_UINT32 = 12,
    OCA_CLASS_UINT64 = 13
};

/* The states of a mute and of a polarity, and the kinds of a lock. */
enum oca_mute_state { OCA_MUTED = 1, OCA_UNMUTED = 2 };
enum oca_polarity_state { OCA_NON_INVERTED = 1, OCA_INVERTED = 2 };
enum oca_lock_kind { OCA_LOCKED_TOTAL = 1, OCA_LOCKED_READONLY = 2 };

/* ---- values ---- */

/* A value: the number of its class (2 to 13, enum oca_class), 0, and its number in 64 bits. That is a state (1 or 2), a
 * position (0 to 65,535), a Boolean (0 or 1) or an integer of the class's type, a signed one in two's complement. A
 * struct with another class or another number holds no value: calls refuse it with OCA_NO_VALUE. The functions below
 * make values. Words of fixed size, the same on every compiler. */
struct oca_value { uint32_t class_number, zero; uint64_t bits; };

/* A value, and the least and the greatest to which the object can be set, for a position and an integer; otherwise both are the value. */
struct oca_reading { struct oca_value value, least, greatest; };

/* Returns the value of the class with the number `class_number` (enum oca_class, 2 to 13) and with the number `bits`,
 * which struct oca_value explains. Nothing is checked: a call that gets a struct without a value refuses it with
 * OCA_NO_VALUE. */
static inline struct oca_value oca_value_of(uint32_t class_number, uint64_t bits) {
    struct oca_value value = {class_number, 0, bits};
    return value;
}

/* Returns the value of an OcaMute (AES70-2): Muted (1) if `muted` is true, otherwise Unmuted (2). */
static inline struct oca_value oca_mute(bool muted) { return oca_value_of(OCA_CLASS_MUTE, muted ? OCA_MUTED : OCA_UNMUTED); }

/* Returns the value of an OcaPolarity (AES70-2): Inverted (2) if `inverted` is true, otherwise NonInverted (1). */
static inline struct oca_value oca_polarity(bool inverted) { return oca_value_of(OCA_CLASS_POLARITY, inverted ? OCA_INVERTED : OCA_NON_INVERTED); }

/* Returns the value of an OcaSwitch (AES70-2): the position `position`, counted from 0. Whether a switch has the
 * position is checked when the switch is set. */
static inline struct oca_value oca_position(uint16_t position) { return oca_value_of(OCA_CLASS_SWITCH, position); }

/* Returns the value of an OcaBooleanActuator (AES70-2): `setting`, true or false. */
static inline struct oca_value oca_boolean(bool setting) { return oca_value_of(OCA_CLASS_BOOLEAN, setting ? 1 : 0); }

/* Returns the value of an OcaInt8Actuator (AES70-2) with the number `setting`: -128 to 127. The limits of an object are
 * checked when the object is set. */
static inline struct oca_value oca_int8(int8_t setting) { return oca_value_of(OCA_CLASS_INT8, (uint64_t)(int64_t)setting); }

/* Returns the value of an OcaInt16Actuator (AES70-2) with the number `setting`: -32,768 to 32,767. The limits of an
 * object are checked when the object is set. */
static inline struct oca_value oca_int16(int16_t setting) { return oca_value_of(OCA_CLASS_INT16, (uint64_t)(int64_t)setting); }

/* Returns the value of an OcaInt32Actuator (AES70-2) with the number `setting`: any number of 32 bits, signed. The
 * limits of an object are checked when the object is set. */
static inline struct oca_value oca_int32(int32_t setting) { return oca_value_of(OCA_CLASS_INT32, (uint64_t)(int64_t)setting); }

/* Returns the value of an OcaInt64Actuator (AES70-2) with the number `setting`: any number of 64 bits, signed. The
 * limits of an object are checked when the object is set. */
static inline struct oca_value oca_int64(int64_t setting) { return oca_value_of(OCA_CLASS_INT64, (uint64_t)setting); }

/* Returns the value of an OcaUint8Actuator (AES70-2) with the number `setting`: 0 to 255. The limits of an object are
 * checked when the object is set. */
static inline struct oca_value oca_uint8(uint8_t setting) { return oca_value_of(OCA_CLASS_UINT8, setting); }

/* Returns the value of an OcaUint16Actuator (AES70-2) with the number `setting`: 0 to 65,535. The limits of an object
 * are checked when the object is set. */
static inline struct oca_value oca_uint16(uint16_t setting) { return oca_value_of(OCA_CLASS_UINT16, setting); }

/* Returns the value of an OcaUint32Actuator (AES70-2) with the number `setting`: any number of 32 bits, from 0 on. The
 * limits of an object are checked when the object is set. */
static inline struct oca_value oca_uint32(uint32_t setting) { return oca_value_of(OCA_CLASS_UINT32, setting); }

/* Returns the value of an OcaUint64Actuator (AES70-2) with the number `setting`: any number of 64 bits, from 0 on. The
 * limits of an object are checked when the object is set. */
static inline struct oca_value oca_uint64(uint64_t setting) { return oca_value_of(OCA_CLASS_UINT64, setting); }

/* Returns a reading: the value `value`, and the values `least` and `greatest` within which the object can be set. The
 * three must be of the same class. Nothing is checked here. The limits are those of an integer; of a switch they are
 * the first and the last position, enabled or not. */
static inline struct oca_reading oca_within(struct oca_value value, struct oca_value least, struct oca_value greatest) {
    struct oca_reading reading = {value, least, greatest};
    return reading;
}

/* Returns a reading of a class without limits (a mute, a polarity, a Boolean): `value`, and the same value as both
 * limits. Nothing is checked. */
static inline struct oca_reading oca_alone(struct oca_value value) { return oca_within(value, value, value); }

/* Returns the number of `value`, of a class of signed integers (Int8 to Int64), as a signed number. For a value of
 * another class it returns the bits of the struct as a signed number. Nothing is checked. */
static inline int64_t oca_value_signed(struct oca_value value) { return (int64_t)value.bits; }

/* Encodes `value` as the one parameter of a set method (AES70-3): writes its bytes to the front of `out`, and their
 * number, 1 to 8, to `len`. Returns OCA_DONE. OCA_NO_VALUE if the struct holds no value: then nothing is written.
 * OCA_TOO_SMALL if `out` has fewer bytes than are needed: then only `len` is written. */
enum oca_result oca_value_put(const struct oca_value *value, uint8_t *out, size_t out_len, size_t *len) OCA_NONNULL;

/* Reads the value and its limits from the answer to a get method (AES70-2), and writes them to `reading`.
 * `class_number` is the number of the object's class (enum oca_class), and `params` are the parameters of the answer to
 * oca_get_request of the same class. Returns OCA_DONE. OCA_NO_VALUE if no class has the number, it is the number of a
 * block, or the parameters are not exactly such an answer: then nothing is written. */
enum oca_result oca_value_read(uint32_t class_number, const uint8_t *params, size_t params_len, struct oca_reading *reading) OCA_NONNULL;

/* Writes the word for `value` to the front of `out`, without a 0 after it, and the number of its bytes, 1 to 20, to
 * `len`. The words are "muted", "unmuted", "non-inverted", "inverted", "on", "off", and decimal digits for a position
 * and an integer. Returns OCA_DONE. OCA_NO_VALUE if the struct holds no value: then nothing is written. OCA_TOO_SMALL
 * if `out` has fewer bytes than the word: then only `len` is written. */
enum oca_result oca_value_text(const struct oca_value *value, uint8_t *out, size_t out_len, size_t *len) OCA_NONNULL;

/* Returns the word for `value` as a C string, for a log: oca_value_word(oca_int16(-60)).text is "-60". The words are
 * those of oca_value_text, at most 20 bytes and a 0. The string is empty if the struct holds no value. */
struct oca_word { char text[24]; };
static inline struct oca_word oca_value_word(struct oca_value value) {
    struct oca_word word = {{0}};
    uint8_t bytes[20] = {0};
    size_t size = 0;
    if (oca_value_text(&value, bytes, sizeof bytes, &size) == OCA_DONE)
        for (size_t i = 0; i < size; i++) word.text[i] = (char)bytes[i];
    return word;
}

/* Writes to `value` the value that a word means for an object of the class with the number `class_number` (enum
 * oca_class). The word `text`, of `text_len` bytes, is a word of the class as oca_value_text writes it, or a number in
 * decimal digits within the class's type. A number may begin with +, and of a signed type also with -. For a switch the
 * word is the number of a position, and not the position's name. Returns OCA_DONE. OCA_NO_VALUE for any other word, for
 * a block, and if no class has the number: then nothing is written. */
enum oca_result oca_value_from_text(uint32_t class_number, const uint8_t *text, size_t text_len, struct oca_value *value) OCA_NONNULL;

/* A request that sets or reads a value: the level and the index of its method (AES70-2), ParamCount, and `size` bytes
 * of parameters (0 to 8). oca_link_ask submits it. */
struct oca_request { uint16_t level, index; uint8_t count, size; uint8_t params[8]; };

/* Writes to `request` the request that sets an object to `value`: the set method of the value's class (AES70-2) with
 * the value as its parameter. Nothing is sent: oca_link_ask submits it. Returns OCA_DONE. OCA_NO_VALUE if the struct
 * holds no value: then nothing is written. */
enum oca_result oca_set_request(const struct oca_value *value, struct oca_request *request) OCA_NONNULL;

/* Writes to `request` the request that reads how an object is set: the get method of the class with the number
 * `class_number` (enum oca_class, AES70-2), without parameters. Nothing is sent: oca_link_ask submits it. Returns
 * OCA_DONE. OCA_NO_VALUE if no class has the number, and for a block: then nothing is written. */
enum oca_result oca_get_request(uint32_t class_number, struct oca_request *request) OCA_NONNULL;

/* ---- objects ---- */

/* A text: a role, a label or the name of a switch's position. It has `size` bytes of UTF-8, at most 64. In a table: {3, "off"}. */
struct oca_name { uint8_t size; uint8_t text[64]; };

/* Returns the text of the C string `text`: its bytes before the 0. If the string has more than 64 bytes, the size of
 * the text is 65, and each call that gets the text refuses it. Whether the bytes are UTF-8 is checked by the call that
 * gets the text. */
static inline struct oca_name oca_name_of(const char *text) {
    struct oca_name name = {0, {0}};
    while (name.size < 64 && text[name.size]) {
        name.text[name.size] = (uint8_t)text[name.size];
        name.size++;
    }
    if (text[name.size]) name.size = 65;
    return name;
}

/* Encodes `text` as the one parameter of SetLabel of OcaWorker (AES70-2): writes its bytes to the front of `out`, and
 * their number, 2 to 66, to `len`. Returns OCA_DONE. OCA_NO_VALUE if the text has more than 64 bytes or is not UTF-8:
 * then nothing is written. OCA_TOO_SMALL if `out` has fewer bytes than are needed: then only `len` is written. */
enum oca_result oca_text_put(const struct oca_name *text, uint8_t *out, size_t out_len, size_t *len) OCA_NONNULL;

/* Reads the text from the answer to GetRole, GetLabel or GetPositionName (AES70-2), and writes it to `text`. `params`
 * are the parameters of the answer. Returns OCA_DONE. OCA_NO_VALUE if they are not exactly one text of at most 64 bytes
 * of UTF-8: then nothing is written. */
enum oca_result oca_text_read(const uint8_t *params, size_t params_len, struct oca_name *text) OCA_NONNULL;

/* Reads the names of a switch's positions from the answer to GetPositionNames of OcaSwitch (AES70-2), and writes them
 * to `names`, in the order of the positions. `params` are the parameters of the answer. Returns OCA_DONE. OCA_NO_VALUE
 * if they are not exactly such an answer, or have more than 16 names or a name of more than 64 bytes: then nothing is
 * written. */
struct oca_names { uint32_t count; struct oca_name names[16]; };
enum oca_result oca_names_read(const uint8_t *params, size_t params_len, struct oca_names *names) OCA_NONNULL;

/* Reads the numbers of a block's members from the answer to GetMembers of OcaBlock (AES70-2), and writes them to
 * `members`, in their order: 0 to 181, since an answer has room for no more. `params` are the parameters of the answer.
 * Returns OCA_DONE. OCA_NO_VALUE if they are not exactly such an answer: then nothing is written. */
struct oca_members { uint32_t count, onos[181]; };
enum oca_result oca_members_read(const uint8_t *params, size_t params_len, struct oca_members *members) OCA_NONNULL;

/* The identifier of a class (OcaClassID, AES70-2): `count` fields, at most 16, and the number of the class in enum
 * oca_class, 0 for a class that is not of this profile. */
struct oca_class_id { uint16_t count, fields[16]; uint32_t class_number; };

/* Reads the class from the answer to GetClassIdentification of OcaRoot (AES70-2), and writes it to `id`: its fields,
 * and its number in enum oca_class, 0 for a class that is not of this profile. `params` are the parameters of the
 * answer; the class's version is ignored. Returns OCA_DONE. OCA_NO_VALUE if `params` is not exactly such an answer, or
 * has more than 16 fields: then `id` is unchanged. */
enum oca_result oca_class_read(const uint8_t *params, size_t params_len, struct oca_class_id *id) OCA_NONNULL;

/* Returns the number of the class (enum oca_class, 1 to 13) whose identifier has the fields `fields`, of which there
 * are `fields_len` (OcaClassID, AES70-2). 0 if no class of this profile has them. */
uint32_t oca_class_with(const uint16_t *fields, size_t fields_len) OCA_NONNULL;

/* The description of an object, by which it is added and as which it is read, so that a device can be made again as it was. It has the
 * class, the setting and its limits, whether the object can be locked and is enabled (0 is false, any other byte is true), its role and its
 * label. For a switch it also has the number of positions, their names, and which are enabled. For a block the class is OCA_CLASS_BLOCK,
 * and the rest of the reading is not looked at. The limits of a mute, a polarity, a Boolean and a position are not looked at either. There
 * is no pointer in it, and no byte between its fields. Its size comes first, even if it is only written to, and the zeros are 0. A struct
 * of another size than the library's, or with another byte there, is refused with OCA_BAD_SIZE. A call that only writes to the struct looks
 * at the size alone: struct oca_spec spec = OCA_SPEC_INIT; */
struct oca_spec {
    uint32_t size;
    uint8_t lockable, enabled;
    uint16_t positions;
    struct oca_reading reading;
    struct oca_name role, label, names[16];
    uint8_t enableds[16], zeros[6];
};
#define OCA_SPEC_INIT {(uint32_t)sizeof(struct oca_spec), 1, 1, 0, {{0, 0, 0}, {0, 0, 0}, {0, 0, 0}}, {0, {0}}, {0, {0}}, {{0, {0}}}, {0}, {0}}

/* Returns the description of an object with the role `role`, a C string, and the reading `reading`. The object is
 * lockable and enabled, and has an empty label and no positions. Nothing is checked: oca_device_add refuses a role that
 * is empty, has more than 64 bytes or is not UTF-8, and a reading that no object can have. For a switch add the
 * positions by oca_spec_position. */
static inline struct oca_spec oca_spec_of(const char *role, struct oca_reading reading) {
    struct oca_spec spec = OCA_SPEC_INIT;
    spec.reading = reading;
    spec.role = oca_name_of(role);
    return spec;
}

/* Returns the description of a block with the role `role`, a C string. The block is lockable and enabled, and has an
 * empty label. Nothing is checked: oca_device_add refuses a role that is empty, has more than 64 bytes or is not UTF-8.
 */
static inline struct oca_spec oca_spec_of_block(const char *role) { return oca_spec_of(role, oca_alone(oca_value_of(OCA_CLASS_BLOCK, 0))); }

/* Adds one more position of a switch to the description `spec`: with the name `name`, a C string, and enabled.
 * Positions are counted from 0, and there are at most 16. After 16 the name is not stored, and the description has 17
 * positions, which oca_device_add refuses with OCA_BAD_RANGE. A name that has more than 64 bytes or is not UTF-8 is
 * refused there with OCA_BAD_TEXT. */
static inline void oca_spec_position(struct oca_spec *spec, const char *name) {
    if (spec->positions < 16) {
        spec->names[spec->positions] = oca_name_of(name);
        spec->enableds[spec->positions] = 1;
    }
    if (spec->positions < 17) spec->positions++;
}

/* Changes `spec`, the description of an object, to what was stored of the object (`stored`): its value, its label, and
 * whether it is enabled. For a switch also the names of its positions and which are enabled. The role, the limits and
 * whether it can be locked stay, so a new version of a program may change those. Returns OCA_DONE. Otherwise the first
 * of these that applies, and then nothing is changed. OCA_BAD_SIZE if one of the structs is of another size, or has
 * another byte in its zeros. OCA_OTHER_KIND if the two differ in their class or in their number of positions.
 * OCA_BAD_RANGE if there are more than 16 positions. OCA_BAD_TEXT if a stored label or name is not UTF-8 or has more
 * than 64 bytes. OCA_OUT_OF_RANGE if the object is no block and the value in `stored` is not one of its class, or is
 * outside the limits in `spec` (for a switch: is not below the number of positions). For a block the value is not
 * looked at. */
enum oca_result oca_spec_restore(struct oca_spec *spec, const struct oca_spec *stored) OCA_NONNULL;

/* ---- the device ---- */

/* A device: a tree of objects, and the sessions of its peers. A peer is an address and a port. A session is what the
 * device stores of a peer: when it was last heard, its heartbeat (AES70-3), and the replies to its last commands. The
 * replies are retained for duplicates of these commands. A closed device: struct oca_device device = OCA_DEVICE_INIT;
 */
struct oca_device { void *at; bool is_open; };
#define OCA_DEVICE_INIT {NULL, false}

/* Opens a device that has its root alone (the block 100), with room for `room` objects, the root counted: 1 to 4,096.
 * The call takes the memory for them. Returns OCA_DONE. Otherwise the first of these that applies, and then nothing is
 * changed. OCA_OPEN if the struct is open already. OCA_BAD_SIZE if `room` is outside its range. OCA_NO_MEMORY if memory
 * was refused: then none is kept. */
enum oca_result oca_device_open(struct oca_device *device, uint16_t room) OCA_CHECKED;

/* Opens a device as oca_device_open does, with what was stored of the root: its label, and whether it is enabled.
 * `room` is the number of objects, the root counted: 1 to 4,096. Of the rest of `root` only its size and its zeros are
 * looked at. The call takes the memory for the objects. Returns OCA_DONE. Otherwise the first of these that applies,
 * and then nothing is changed. OCA_OPEN if the struct is open already. OCA_BAD_SIZE if `room` is outside its range, or
 * `root` is of another size or has another byte in its zeros. OCA_BAD_TEXT if the label is not UTF-8 or has more than
 * 64 bytes. OCA_NO_MEMORY if memory was refused: then none is kept. */
enum oca_result oca_device_open_with(struct oca_device *device, uint16_t room, const struct oca_spec *root) OCA_CHECKED;

/* Closes a device and frees its memory. Its objects and sessions are lost; nothing is sent. A closed device stays
 * closed, and for a null pointer nothing is done. The device can be opened again. */
void oca_device_close(struct oca_device *device);

/* Closes a device as oca_device_close does, which a program calls. */
void oca_device_shut(struct oca_device *device) OCA_NONNULL;

/* Adds the object that `spec` describes to the tree, before the start. `ono` is the object's number, and `container` is
 * the number of the block that contains it (the number of the root is 100). Returns OCA_DONE. Otherwise the first of
 * these that applies, and then nothing is changed. OCA_CLOSED if the device is closed. OCA_STARTED after its start.
 * OCA_BAD_SIZE if the struct is of another size or has another byte in its zeros. OCA_BAD_RANGE if it has more than 16
 * positions. OCA_BAD_TEXT if the role, the label or a name is not UTF-8 or has more than 64 bytes. OCA_NO_VALUE if the
 * reading is none that an object can have. OCA_FULL if there is no room for another object. OCA_RESERVED if `ono` is
 * below 4,096. OCA_TAKEN if an object has that number. OCA_NO_SUCH_BLOCK if no block has the number `container`.
 * OCA_TOO_DEEP if the object would be at depth 9 (the root is at depth 1). OCA_BAD_TEXT if the role is empty.
 * OCA_BAD_RANGE if the setting is outside its limits, or a switch has no position. */
enum oca_result oca_device_add(struct oca_device *device, uint32_t container, uint32_t ono, const struct oca_spec *spec) OCA_CHECKED;

/* Adds an OcaBlock (AES70-2) to the tree, before the start. `container` is the number of the block that contains the
 * object (the number of the root is 100), `ono` is the object's own number, and `role` is its role, 1 to 64 bytes of
 * UTF-8. `lockable` says whether the object can be locked. Returns OCA_DONE. Otherwise the first of these that applies,
 * and then nothing is changed. OCA_CLOSED if the device is closed. OCA_STARTED after its start. OCA_BAD_TEXT if the
 * role is not UTF-8. OCA_FULL if there is no room for another object. OCA_RESERVED if `ono` is below 4,096. OCA_TAKEN
 * if an object has that number. OCA_NO_SUCH_BLOCK if no block has the number `container`. OCA_TOO_DEEP if the object
 * would be at depth 9 (the root is at depth 1). OCA_BAD_TEXT if the role is empty or has more than 64 bytes. */
enum oca_result oca_device_add_block(struct oca_device *device, uint32_t container, uint32_t ono, const uint8_t *role, size_t role_len, bool lockable) OCA_CHECKED;

/* Adds an OcaMute (AES70-2) to the tree, before the start. `container` is the number of the block that contains the
 * object (the number of the root is 100), `ono` is the object's own number, and `role` is its role, 1 to 64 bytes of
 * UTF-8. `lockable` says whether the object can be locked. `muted` is its first state. Returns OCA_DONE. Otherwise the
 * first of these that applies, and then nothing is changed. OCA_CLOSED if the device is closed. OCA_STARTED after its
 * start. OCA_BAD_TEXT if the role is not UTF-8. OCA_FULL if there is no room for another object. OCA_RESERVED if `ono`
 * is below 4,096. OCA_TAKEN if an object has that number. OCA_NO_SUCH_BLOCK if no block has the number `container`.
 * OCA_TOO_DEEP if the object would be at depth 9 (the root is at depth 1). OCA_BAD_TEXT if the role is empty or has
 * more than 64 bytes. */
enum oca_result oca_device_add_mute(struct oca_device *device, uint32_t container, uint32_t ono, const uint8_t *role, size_t role_len, bool lockable, bool muted) OCA_CHECKED;

/* Adds an OcaPolarity (AES70-2) to the tree, before the start. `container` is the number of the block that contains the
 * object (the number of the root is 100), `ono` is the object's own number, and `role` is its role, 1 to 64 bytes of
 * UTF-8. `lockable` says whether the object can be locked. `inverted` is its first state. Returns OCA_DONE. Otherwise
 * the first of these that applies, and then nothing is changed. OCA_CLOSED if the device is closed. OCA_STARTED after
 * its start. OCA_BAD_TEXT if the role is not UTF-8. OCA_FULL if there is no room for another object. OCA_RESERVED if
 * `ono` is below 4,096. OCA_TAKEN if an object has that number. OCA_NO_SUCH_BLOCK if no block has the number
 * `container`. OCA_TOO_DEEP if the object would be at depth 9 (the root is at depth 1). OCA_BAD_TEXT if the role is
 * empty or has more than 64 bytes. */
enum oca_result oca_device_add_polarity(struct oca_device *device, uint32_t container, uint32_t ono, const uint8_t *role, size_t role_len, bool lockable, bool inverted) OCA_CHECKED;

/* Adds an OcaBooleanActuator (AES70-2) to the tree, before the start. `container` is the number of the block that
 * contains the object (the number of the root is 100), `ono` is the object's own number, and `role` is its role, 1 to
 * 64 bytes of UTF-8. `lockable` says whether the object can be locked. `setting` is its first setting. Returns
 * OCA_DONE. Otherwise the first of these that applies, and then nothing is changed. OCA_CLOSED if the device is closed.
 * OCA_STARTED after its start. OCA_BAD_TEXT if the role is not UTF-8. OCA_FULL if there is no room for another object.
 * OCA_RESERVED if `ono` is below 4,096. OCA_TAKEN if an object has that number. OCA_NO_SUCH_BLOCK if no block has the
 * number `container`. OCA_TOO_DEEP if the object would be at depth 9 (the root is at depth 1). OCA_BAD_TEXT if the role
 * is empty or has more than 64 bytes. */
enum oca_result oca_device_add_boolean(struct oca_device *device, uint32_t container, uint32_t ono, const uint8_t *role, size_t role_len, bool lockable, bool setting) OCA_CHECKED;

/* Adds an OcaInt8Actuator (AES70-2) to the tree, before the start. `container` is the number of the block that contains
 * the object (the number of the root is 100), `ono` is the object's own number, and `role` is its role, 1 to 64 bytes
 * of UTF-8. `lockable` says whether the object can be locked. `setting` is its first setting. Its settings must lie
 * within `least` to `greatest`, now and later. Returns OCA_DONE. Otherwise the first of these that applies, and then
 * nothing is changed. OCA_CLOSED if the device is closed. OCA_STARTED after its start. OCA_BAD_TEXT if the role is not
 * UTF-8. OCA_FULL if there is no room for another object. OCA_RESERVED if `ono` is below 4,096. OCA_TAKEN if an object
 * has that number. OCA_NO_SUCH_BLOCK if no block has the number `container`. OCA_TOO_DEEP if the object would be at
 * depth 9 (the root is at depth 1). OCA_BAD_TEXT if the role is empty or has more than 64 bytes. OCA_BAD_RANGE if the
 * setting is outside `least` to `greatest`. */
enum oca_result oca_device_add_int8(struct oca_device *device, uint32_t container, uint32_t ono, const uint8_t *role, size_t role_len, bool lockable, int8_t setting, int8_t least, int8_t greatest) OCA_CHECKED;

/* Adds an OcaInt16Actuator (AES70-2) to the tree, before the start. `container` is the number of the block that
 * contains the object (the number of the root is 100), `ono` is the object's own number, and `role` is its role, 1 to
 * 64 bytes of UTF-8. `lockable` says whether the object can be locked. `setting` is its first setting. Its settings
 * must lie within `least` to `greatest`, now and later. Returns OCA_DONE. Otherwise the first of these that applies,
 * and then nothing is changed. OCA_CLOSED if the device is closed. OCA_STARTED after its start. OCA_BAD_TEXT if the
 * role is not UTF-8. OCA_FULL if there is no room for another object. OCA_RESERVED if `ono` is below 4,096. OCA_TAKEN
 * if an object has that number. OCA_NO_SUCH_BLOCK if no block has the number `container`. OCA_TOO_DEEP if the object
 * would be at depth 9 (the root is at depth 1). OCA_BAD_TEXT if the role is empty or has more than 64 bytes.
 * OCA_BAD_RANGE if the setting is outside `least` to `greatest`. */
enum oca_result oca_device_add_int16(struct oca_device *device, uint32_t container, uint32_t ono, const uint8_t *role, size_t role_len, bool lockable, int16_t setting, int16_t least, int16_t greatest) OCA_CHECKED;

/* Adds an OcaInt32Actuator (AES70-2) to the tree, before the start. `container` is the number of the block that
 * contains the object (the number of the root is 100), `ono` is the object's own number, and `role` is its role, 1 to
 * 64 bytes of UTF-8. `lockable` says whether the object can be locked. `setting` is its first setting. Its settings
 * must lie within `least` to `greatest`, now and later. Returns OCA_DONE. Otherwise the first of these that applies,
 * and then nothing is changed. OCA_CLOSED if the device is closed. OCA_STARTED after its start. OCA_BAD_TEXT if the
 * role is not UTF-8. OCA_FULL if there is no room for another object. OCA_RESERVED if `ono` is below 4,096. OCA_TAKEN
 * if an object has that number. OCA_NO_SUCH_BLOCK if no block has the number `container`. OCA_TOO_DEEP if the object
 * would be at depth 9 (the root is at depth 1). OCA_BAD_TEXT if the role is empty or has more than 64 bytes.
 * OCA_BAD_RANGE if the setting is outside `least` to `greatest`. */
enum oca_result oca_device_add_int32(struct oca_device *device, uint32_t container, uint32_t ono, const uint8_t *role, size_t role_len, bool lockable, int32_t setting, int32_t least, int32_t greatest) OCA_CHECKED;

/* Adds an OcaInt64Actuator (AES70-2) to the tree, before the start. `container` is the number of the block that
 * contains the object (the number of the root is 100), `ono` is the object's own number, and `role` is its role, 1 to
 * 64 bytes of UTF-8. `lockable` says whether the object can be locked. `setting` is its first setting. Its settings
 * must lie within `least` to `greatest`, now and later. Returns OCA_DONE. Otherwise the first of these that applies,
 * and then nothing is changed. OCA_CLOSED if the device is closed. OCA_STARTED after its start. OCA_BAD_TEXT if the
 * role is not UTF-8. OCA_FULL if there is no room for another object. OCA_RESERVED if `ono` is below 4,096. OCA_TAKEN
 * if an object has that number. OCA_NO_SUCH_BLOCK if no block has the number `container`. OCA_TOO_DEEP if the object
 * would be at depth 9 (the root is at depth 1). OCA_BAD_TEXT if the role is empty or has more than 64 bytes.
 * OCA_BAD_RANGE if the setting is outside `least` to `greatest`. */
enum oca_result oca_device_add_int64(struct oca_device *device, uint32_t container, uint32_t ono, const uint8_t *role, size_t role_len, bool lockable, int64_t setting, int64_t least, int64_t greatest) OCA_CHECKED;

/* Adds an OcaUint8Actuator (AES70-2) to the tree, before the start. `container` is the number of the block that
 * contains the object (the number of the root is 100), `ono` is the object's own number, and `role` is its role, 1 to
 * 64 bytes of UTF-8. `lockable` says whether the object can be locked. `setting` is its first setting. Its settings
 * must lie within `least` to `greatest`, now and later. Returns OCA_DONE. Otherwise the first of these that applies,
 * and then nothing is changed. OCA_CLOSED if the device is closed. OCA_STARTED after its start. OCA_BAD_TEXT if the
 * role is not UTF-8. OCA_FULL if there is no room for another object. OCA_RESERVED if `ono` is below 4,096. OCA_TAKEN
 * if an object has that number. OCA_NO_SUCH_BLOCK if no block has the number `container`. OCA_TOO_DEEP if the object
 * would be at depth 9 (the root is at depth 1). OCA_BAD_TEXT if the role is empty or has more than 64 bytes.
 * OCA_BAD_RANGE if the setting is outside `least` to `greatest`. */
enum oca_result oca_device_add_uint8(struct oca_device *device, uint32_t container, uint32_t ono, const uint8_t *role, size_t role_len, bool lockable, uint8_t setting, uint8_t least, uint8_t greatest) OCA_CHECKED;

/* Adds an OcaUint16Actuator (AES70-2) to the tree, before the start. `container` is the number of the block that
 * contains the object (the number of the root is 100), `ono` is the object's own number, and `role` is its role, 1 to
 * 64 bytes of UTF-8. `lockable` says whether the object can be locked. `setting` is its first setting. Its settings
 * must lie within `least` to `greatest`, now and later. Returns OCA_DONE. Otherwise the first of these that applies,
 * and then nothing is changed. OCA_CLOSED if the device is closed. OCA_STARTED after its start. OCA_BAD_TEXT if the
 * role is not UTF-8. OCA_FULL if there is no room for another object. OCA_RESERVED if `ono` is below 4,096. OCA_TAKEN
 * if an object has that number. OCA_NO_SUCH_BLOCK if no block has the number `container`. OCA_TOO_DEEP if the object
 * would be at depth 9 (the root is at depth 1). OCA_BAD_TEXT if the role is empty or has more than 64 bytes.
 * OCA_BAD_RANGE if the setting is outside `least` to `greatest`. */
enum oca_result oca_device_add_uint16(struct oca_device *device, uint32_t container, uint32_t ono, const uint8_t *role, size_t role_len, bool lockable, uint16_t setting, uint16_t least, uint16_t greatest) OCA_CHECKED;

/* Adds an OcaUint32Actuator (AES70-2) to the tree, before the start. `container` is the number of the block that
 * contains the object (the number of the root is 100), `ono` is the object's own number, and `role` is its role, 1 to
 * 64 bytes of UTF-8. `lockable` says whether the object can be locked. `setting` is its first setting. Its settings
 * must lie within `least` to `greatest`, now and later. Returns OCA_DONE. Otherwise the first of these that applies,
 * and then nothing is changed. OCA_CLOSED if the device is closed. OCA_STARTED after its start. OCA_BAD_TEXT if the
 * role is not UTF-8. OCA_FULL if there is no room for another object. OCA_RESERVED if `ono` is below 4,096. OCA_TAKEN
 * if an object has that number. OCA_NO_SUCH_BLOCK if no block has the number `container`. OCA_TOO_DEEP if the object
 * would be at depth 9 (the root is at depth 1). OCA_BAD_TEXT if the role is empty or has more than 64 bytes.
 * OCA_BAD_RANGE if the setting is outside `least` to `greatest`. */
enum oca_result oca_device_add_uint32(struct oca_device *device, uint32_t container, uint32_t ono, const uint8_t *role, size_t role_len, bool lockable, uint32_t setting, uint32_t least, uint32_t greatest) OCA_CHECKED;

/* Adds an OcaUint64Actuator (AES70-2) to the tree, before the start. `container` is the number of the block that
 * contains the object (the number of the root is 100), `ono` is the object's own number, and `role` is its role, 1 to
 * 64 bytes of UTF-8. `lockable` says whether the object can be locked. `setting` is its first setting. Its settings
 * must lie within `least` to `greatest`, now and later. Returns OCA_DONE. Otherwise the first of these that applies,
 * and then nothing is changed. OCA_CLOSED if the device is closed. OCA_STARTED after its start. OCA_BAD_TEXT if the
 * role is not UTF-8. OCA_FULL if there is no room for another object. OCA_RESERVED if `ono` is below 4,096. OCA_TAKEN
 * if an object has that number. OCA_NO_SUCH_BLOCK if no block has the number `container`. OCA_TOO_DEEP if the object
 * would be at depth 9 (the root is at depth 1). OCA_BAD_TEXT if the role is empty or has more than 64 bytes.
 * OCA_BAD_RANGE if the setting is outside `least` to `greatest`. */
enum oca_result oca_device_add_uint64(struct oca_device *device, uint32_t container, uint32_t ono, const uint8_t *role, size_t role_len, bool lockable, uint64_t setting, uint64_t least, uint64_t greatest) OCA_CHECKED;

/* Adds an OcaSwitch (AES70-2) with 1 to 16 positions, all of them enabled, to the tree, before the start. `container`
 * is the number of the block that contains the object (the number of the root is 100), `ono` is the object's own
 * number, and `role` is its role, 1 to 64 bytes of UTF-8. `lockable` says whether the object can be locked. `names` are
 * the names of its positions, `names_len` of them, each of 0 to 64 bytes of UTF-8. `position` is its first position,
 * counted from 0. Returns OCA_DONE. Otherwise the first of these that applies, and then nothing is changed. OCA_CLOSED
 * if the device is closed. OCA_STARTED after its start. OCA_BAD_RANGE if there are more than 16 names. OCA_BAD_TEXT if
 * a name has more than 64 bytes, or the role or a name is not UTF-8. OCA_FULL if there is no room for another object.
 * OCA_RESERVED if `ono` is below 4,096. OCA_TAKEN if an object has that number. OCA_NO_SUCH_BLOCK if no block has the
 * number `container`. OCA_TOO_DEEP if the object would be at depth 9 (the root is at depth 1). OCA_BAD_TEXT if the role
 * is empty or has more than 64 bytes. OCA_BAD_RANGE if there is no name, or none for the position. */
enum oca_result oca_device_add_switch(struct oca_device *device, uint32_t container, uint32_t ono, const uint8_t *role, size_t role_len, bool lockable, const struct oca_name *names, size_t names_len, uint16_t position) OCA_CHECKED;

/* Starts the device: from then on datagrams are handled, and no object can be added. `window` is for how many commands
 * of one peer the device keeps the replies: 1 to 64; 32 is usual. It must be at least twice the panels' span less one,
 * and one more for each command that earlier links of a panel, used in the last 100 seconds, left unanswered. `peers`
 * is how many peers can have a session at once: 1 to 64; 16 is usual. The call takes the memory for both, and for 122
 * packets that answer a datagram. Returns OCA_DONE. Otherwise the first of these that applies. OCA_CLOSED if the device
 * is closed, OCA_STARTED if it is started already, OCA_BAD_SIZE if a size is outside its range: then nothing is
 * changed. OCA_NO_MEMORY if memory was refused: then the objects are lost and the struct is closed; it can be opened
 * again. */
enum oca_result oca_device_start(struct oca_device *device, uint8_t window, uint8_t peers) OCA_CHECKED;

/* Starts the device as oca_device_start does, but with room for `packets` packets that answer a datagram: 1 to 122, of
 * some 1,480 bytes each. `window` is for how many commands of one peer the device keeps the replies, and `peers` is how
 * many peers can have a session at once: both 1 to 64. All commands of a datagram are executed, whatever the room.
 * Packets for which there is no room are left out, as if the network had lost them: a controller that sends such a
 * command again gets the retained reply. A datagram never gets more packets than it has commands and keep-alives.
 * Returns OCA_DONE. Otherwise the first of these that applies. OCA_CLOSED if the device is closed, OCA_STARTED if it is
 * started already, OCA_BAD_SIZE if a size is outside its range: then nothing is changed. OCA_NO_MEMORY if memory was
 * refused: then the objects are lost and the struct is closed; it can be opened again. */
enum oca_result oca_device_start_within(struct oca_device *device, uint8_t window, uint8_t peers, size_t packets) OCA_CHECKED;

/* Starts a small device, with the arguments of oca_device_start_within: a device for objects of which panels set and
 * read single values. All calls of a device work on it. The start takes 376 bytes for each command of a window, `window`
 * times `peers` of them, and not 2,952. A command may have 64 bytes of parameters: a datagram of more than 91 bytes is
 * malformed with OCA_FAULT_TOO_LONG, at byte 91, and none of its commands is executed or answered. A link that sends a
 * command with more than 64 bytes of parameters sends it 20 times and is then lost: so a panel must not set a label of
 * more than 62 bytes, or a name of a position of more than 60. A reply may have 264 bytes of parameters: a longer one is
 * sent as OCA_STATUS_BUFFER_OVERFLOW without parameters. Its command was executed; only commands that read have such
 * replies. A panel can list a block of at most 14 to 18 members. A datagram of at most 91 bytes has at most 7 packets of
 * answers. Returns OCA_DONE. Otherwise the first of these that applies. OCA_CLOSED if the device is closed, OCA_STARTED
 * if it is started already, OCA_BAD_SIZE if a size is outside its range: then nothing is changed. OCA_NO_MEMORY if
 * memory was refused: then the objects are lost and the struct is closed; it can be opened again. */
enum oca_result oca_device_start_small(struct oca_device *device, uint8_t window, uint8_t peers, size_t packets) OCA_CHECKED;

/* What became of a datagram. `kind` is 0 if it was served. Then come how many of its commands were executed
 * (`executed`), were duplicates (`kept`), were too old (`old`), and asked something else under the handle of a command
 * whose reply is retained (`reused`). `kind` is 1 if the datagram was malformed: `fault` is its first fault (enum
 * oca_fault, 1 to 9) and `at` its offset in bytes. `kind` is 2 if there was no room for a session of its sender. The
 * fields that are not named are 0. A later version may have further fields: each is a word. */
struct oca_verdict { uint32_t kind, executed, kept, old, reused, fault, at; };

/* Handles the datagram `bytes` that came from the address `ip` (an IPv4 address as a number, the first byte highest)
 * and the port `port` at the moment `now`, in milliseconds, as oca_device_datagram does, and writes the first `words`
 * words of struct oca_verdict to `verdict`: at most the seven that this version has. A program calls
 * oca_device_datagram. Returns OCA_DONE. OCA_CLOSED if the device is closed, and OCA_NOT_STARTED before its start: then
 * nothing is changed or written. */
enum oca_result oca_device_datagram_words(struct oca_device *device, uint32_t ip, uint16_t port, const uint8_t *bytes, size_t len, uint64_t now, uint32_t *verdict, size_t words) OCA_NONNULL;

/* Handles the datagram `bytes`, of `len` bytes, that came from the address `ip` and the port `port` at the moment
 * `now`, in milliseconds, and writes what became of it to `verdict`. `ip` is an IPv4 address as a number, the first
 * byte highest. The device's clock moves to `now` first, as oca_device_tick does. The answers are then the device's
 * packets, all for the sender, until the next datagram: oca_device_packet has their bytes. Returns OCA_DONE. OCA_CLOSED
 * if the device is closed, and OCA_NOT_STARTED before its start: then nothing is changed or written. */
static inline enum oca_result oca_device_datagram(struct oca_device *device, uint32_t ip, uint16_t port, const uint8_t *bytes, size_t len, uint64_t now, struct oca_verdict *verdict) {
    return oca_device_datagram_words(device, ip, port, bytes, len, now, &verdict->kind, sizeof *verdict / sizeof verdict->kind);
}

/* Writes to `count` how many packets answer the last datagram: 0 to 122, and 0 before the first datagram. Each is sent
 * to the sender of the datagram, in order. Returns OCA_DONE. OCA_CLOSED if the device is closed, and OCA_NOT_STARTED
 * before its start: then nothing is changed or written. */
enum oca_result oca_device_packets(struct oca_device *device, size_t *count) OCA_NONNULL;

/* Writes the bytes of a packet that answers the last datagram to the front of `out`, and their number, at most 1,472,
 * to `len`. `i` is the index of the packet, from 0 in the order in which the packets are sent. The packet stays.
 * Returns OCA_DONE. OCA_CLOSED if the device is closed, OCA_NOT_STARTED before its start, and OCA_NOTHING if there are
 * `i` packets or fewer: then nothing is written. OCA_TOO_SMALL if `out` has fewer bytes than the packet: then only
 * `len` is written. */
enum oca_result oca_device_packet(struct oca_device *device, size_t i, uint8_t *out, size_t out_len, size_t *len) OCA_NONNULL;

/* Writes to `left_out` whether answers to the last datagram were left out because the device had no room for them
 * (oca_device_start_within, oca_device_start_small). False before the first datagram. Returns OCA_DONE. OCA_CLOSED if
 * the device is closed, and OCA_NOT_STARTED before its start: then nothing is changed or written. */
enum oca_result oca_device_left_out(struct oca_device *device, bool *left_out) OCA_NONNULL;

/* Writes the numbers of the objects that the last datagram wrote to, in order, each as often as it was written. `count`
 * becomes how many there are: 0 to OCA_MOST_WRITTEN, and 0 before the first datagram. Each command that writes and was
 * executed with the status OK is in the list: for a value, even one that was there before, a label, whether the object
 * is enabled, names and flags of positions. A lock, a refused command and a duplicate are not. Clock readings and
 * settings at the local front panel leave the list as it is. Returns OCA_DONE. OCA_CLOSED if the device is closed, and
 * OCA_NOT_STARTED before its start: then nothing is changed or written. OCA_TOO_SMALL if `out` has no room for all:
 * then it gets the first of them, and `count` is written too. */
enum oca_result oca_device_written(struct oca_device *device, uint32_t *out, size_t out_len, size_t *count) OCA_NONNULL;

/* What a device did with a command: it executed it; it is a duplicate, whose reply is retained; it is too old; or it asks something else under
 * the handle of a retained command. */
enum oca_command_outcome { OCA_EXECUTED = 1, OCA_DUPLICATE = 2, OCA_OLD = 3, OCA_REUSED = 4 };

/* A command of a datagram: the number of the object that it names, its method (enum oca_method), what the device did with it (enum
 * oca_command_outcome), and its status (enum oca_status) if it was executed, otherwise 0. A later version may have further fields: each is a
 * word. */
struct oca_effect { uint32_t ono, method, outcome, status; };

/* Writes what the device did with a command of the last datagram, as oca_device_effect does: the first `words` words of
 * struct oca_effect to `effect`, at most the four that this version has. A program calls oca_device_effect. Returns
 * OCA_DONE. Otherwise the first of these that applies, and then nothing is changed or written. OCA_CLOSED if the device
 * is closed. OCA_NOT_STARTED before its start. OCA_NOTHING if the last datagram had `index` commands or fewer. */
enum oca_result oca_device_effect_words(struct oca_device *device, size_t index, uint32_t *effect, size_t words) OCA_NONNULL;

/* Writes what the device did with the command of the last datagram that has this index, from 0, to `effect`. So a
 * program learns whether a label or a value was set. Clock readings and settings at the local front panel leave it as
 * it is. A malformed datagram, and one that found no room for a session, has no command here. Returns OCA_DONE.
 * Otherwise the first of these that applies, and then nothing is changed or written. OCA_CLOSED if the device is
 * closed. OCA_NOT_STARTED before its start. OCA_NOTHING if the last datagram had `index` commands or fewer. */
static inline enum oca_result oca_device_effect(struct oca_device *device, size_t index, struct oca_effect *effect) {
    return oca_device_effect_words(device, index, &effect->ono, sizeof *effect / sizeof effect->ono);
}

/* Writes to `waits` whether the answers to the last datagram must wait until the objects are stored. This is for a
 * device on which everything that was answered with OCA_STATUS_OK must be there after a power cut. The answers wait if
 * the datagram wrote to an object (oca_device_written lists one). While something that datagrams wrote is not stored,
 * they also wait if the datagram had a duplicate, whose answer is that of an earlier command. Then store the objects
 * (oca_store_save), call oca_device_stored, and send the packets. If the objects cannot be stored, send none of the
 * packets. For the controller it is as if the network had lost them, and the answers to its next transmission of the
 * command wait too. False before the first datagram. Returns OCA_DONE. OCA_CLOSED if the device is closed, and
 * OCA_NOT_STARTED before its start: then nothing is changed or written. */
enum oca_result oca_device_waits(struct oca_device *device, bool *waits) OCA_NONNULL;

/* Notes that the objects are stored as they are now: oca_device_waits is then false. Call it right after storing them,
 * before another datagram is handled or an object is set. Several datagrams may be handled before the objects are
 * stored once; the caller then keeps the packets of each whose answers wait, and sends them after this call. What is
 * set at the local front panel makes no answers wait. Nothing is sent. Returns OCA_DONE. OCA_CLOSED if the device is
 * closed, and OCA_NOT_STARTED before its start: then nothing is changed or written. */
enum oca_result oca_device_stored(struct oca_device *device) OCA_NONNULL;

/* Moves the device's clock on to `now`, in milliseconds, when no datagram comes: sessions and locks lapse by it. The
 * lock of a peer is released if the device heard nothing from the peer for more than three of its heartbeats. A session
 * is forgotten if its peer was silent for more than 120,000 ms. A moment earlier than the latest one so far is taken as
 * that latest one. Nothing is answered. Returns OCA_DONE. OCA_CLOSED if the device is closed, and OCA_NOT_STARTED
 * before its start: then nothing is changed or written. */
enum oca_result oca_device_tick(struct oca_device *device, uint64_t now) OCA_NONNULL;

/* Writes to `moment` the earliest moment, in milliseconds, at which oca_device_tick releases a lock or forgets a
 * session. The moment is not before the device's own. A loop may sleep until then if no datagram comes. Returns
 * OCA_DONE. Otherwise the first of these that applies, and then nothing is changed or written. OCA_CLOSED if the device
 * is closed. OCA_NOT_STARTED before its start. OCA_NOTHING if there is no such moment within 64 bits, as without
 * sessions. */
enum oca_result oca_device_next_lapse(struct oca_device *device, uint64_t *moment) OCA_NONNULL;

/* Sets a mute (1 Muted, 2 Unmuted) or a polarity (1 NonInverted, 2 Inverted) at the local front panel. A lock of a
 * controller does not refuse it, and no peer gets a message (the local front panel is the profile's, not AES70's).
 * Returns OCA_DONE. Otherwise the first of these that applies, and then nothing is changed. OCA_CLOSED if the device is
 * closed. OCA_NOT_STARTED before its start. OCA_NO_OBJECT if no object has the number `ono`. OCA_NO_SETTING if it is a
 * block. OCA_OTHER_KIND if it is of another class. OCA_OUT_OF_RANGE if `state` is neither 1 nor 2. */
enum oca_result oca_device_set_state(struct oca_device *device, uint32_t ono, uint8_t state) OCA_NONNULL;

/* Sets a switch to a position at the local front panel. `position` is counted from 0. A lock of a controller does not
 * refuse it, and no peer gets a message (the local front panel is the profile's, not AES70's). Returns OCA_DONE.
 * Otherwise the first of these that applies, and then nothing is changed. OCA_CLOSED if the device is closed.
 * OCA_NOT_STARTED before its start. OCA_NO_OBJECT if no object has the number `ono`. OCA_NO_SETTING if it is a block.
 * OCA_OTHER_KIND if it is of another class. OCA_OUT_OF_RANGE if the switch has no such position, or the position is
 * disabled. */
enum oca_result oca_device_set_position(struct oca_device *device, uint32_t ono, uint16_t position) OCA_NONNULL;

/* Sets a Boolean actuator to `truth` at the local front panel. A lock of a controller does not refuse it, and no peer
 * gets a message (the local front panel is the profile's, not AES70's). Returns OCA_DONE. Otherwise the first of these
 * that applies, and then nothing is changed. OCA_CLOSED if the device is closed. OCA_NOT_STARTED before its start.
 * OCA_NO_OBJECT if no object has the number `ono`. OCA_NO_SETTING if it is a block. OCA_OTHER_KIND if it is of another
 * class. */
enum oca_result oca_device_set_truth(struct oca_device *device, uint32_t ono, bool truth) OCA_NONNULL;

/* Sets an actuator of integers, of any type, to `number` at the local front panel. A lock of a controller does not
 * refuse it, and no peer gets a message (the local front panel is the profile's, not AES70's). Returns OCA_DONE.
 * Otherwise the first of these that applies, and then nothing is changed. OCA_CLOSED if the device is closed.
 * OCA_NOT_STARTED before its start. OCA_NO_OBJECT if no object has the number `ono`. OCA_NO_SETTING if it is a block.
 * OCA_OTHER_KIND if it is of another class. OCA_OUT_OF_RANGE if the number is outside the object's limits. */
enum oca_result oca_device_set_signed(struct oca_device *device, uint32_t ono, int64_t number) OCA_NONNULL;

/* Sets an actuator of integers, of any type, to `number` at the local front panel, also to a number above those of
 * oca_device_set_signed. A lock of a controller does not refuse it, and no peer gets a message (the local front panel
 * is the profile's, not AES70's). Returns OCA_DONE. Otherwise the first of these that applies, and then nothing is
 * changed. OCA_CLOSED if the device is closed. OCA_NOT_STARTED before its start. OCA_NO_OBJECT if no object has the
 * number `ono`. OCA_NO_SETTING if it is a block. OCA_OTHER_KIND if it is of another class. OCA_OUT_OF_RANGE if the
 * number is outside the object's limits. */
enum oca_result oca_device_set_unsigned(struct oca_device *device, uint32_t ono, uint64_t number) OCA_NONNULL;

/* Sets the object `ono` at the local front panel to `value`, which must be of the object's class. A lock of a
 * controller does not refuse it, and no peer gets a message (the local front panel is the profile's, not AES70's).
 * Returns OCA_DONE. Otherwise the first of these that applies, and then nothing is changed. OCA_CLOSED if the device is
 * closed. OCA_NOT_STARTED before its start. OCA_NO_VALUE if the struct holds no value. OCA_NO_OBJECT if no object has
 * the number `ono`. OCA_NO_SETTING if it is a block. OCA_OTHER_KIND if the value is of another class, such as a
 * polarity's for a mute, or an integer of another type. OCA_OUT_OF_RANGE if a switch has no such position or it is
 * disabled, or a number is outside the object's limits. */
enum oca_result oca_device_set(struct oca_device *device, uint32_t ono, const struct oca_value *value) OCA_NONNULL;

/* Gives an object the label `label`, `label_len` bytes of UTF-8, 0 to 64, at the local front panel. A lock of a
 * controller does not refuse it, and no peer gets a message (the local front panel is the profile's, not AES70's).
 * Returns OCA_DONE. Otherwise the first of these that applies, and then nothing is changed. OCA_CLOSED if the device is
 * closed. OCA_NOT_STARTED before its start. OCA_BAD_TEXT if the bytes are not UTF-8. OCA_NO_OBJECT if no object has the
 * number `ono`. OCA_BAD_TEXT if the label has more than 64 bytes. */
enum oca_result oca_device_set_label(struct oca_device *device, uint32_t ono, const uint8_t *label, size_t label_len) OCA_NONNULL;

/* Enables an object (`enabled` is true) or disables it at the local front panel, as SetEnabled of OcaWorker does
 * (AES70-2). A lock of a controller does not refuse it, and no peer gets a message (the local front panel is the
 * profile's, not AES70's). Returns OCA_DONE. Otherwise the first of these that applies, and then nothing is changed.
 * OCA_CLOSED if the device is closed. OCA_NOT_STARTED before its start. OCA_NO_OBJECT if no object has the number
 * `ono`. */
enum oca_result oca_device_set_enabled(struct oca_device *device, uint32_t ono, bool enabled) OCA_NONNULL;

/* Releases the lock of an object at the local front panel, whichever peer has it (oca_device_lock writes which). The
 * peer gets no message. It keeps its session and its other locks, and may lock the object again. Returns OCA_DONE.
 * Otherwise the first of these that applies, and then nothing is changed. OCA_CLOSED if the device is closed.
 * OCA_NOT_STARTED before its start. OCA_NO_OBJECT if no object has the number `ono`. OCA_NOTHING if the object is not
 * locked. */
enum oca_result oca_device_unlock(struct oca_device *device, uint32_t ono) OCA_NONNULL;

/* Sets whether the hardware of an object refuses changes (`failing`), until the next such call for the object. At first
 * it does not. While it does, a command that writes to the object changes nothing and is answered
 * OCA_STATUS_PROCESSING_FAILED, or with the status of another fault that the command has. When this status is sent is
 * the profile's choice. A duplicate gets its retained reply. Commands that read or lock work as before, and so do the
 * calls of the local front panel. The setting is in no struct oca_spec and is not stored. Returns OCA_DONE. Otherwise
 * the first of these that applies, and then nothing is changed. OCA_CLOSED if the device is closed. OCA_NOT_STARTED
 * before its start. OCA_NO_OBJECT if no object has the number `ono`. */
enum oca_result oca_device_set_failing(struct oca_device *device, uint32_t ono, bool failing) OCA_NONNULL;

/* Writes to `failing` whether the hardware of an object refuses changes, as oca_device_set_failing last set it. False
 * before the first such call. Returns OCA_DONE. Otherwise the first of these that applies, and then nothing is changed
 * or written. OCA_CLOSED if the device is closed. OCA_NOT_STARTED before its start. OCA_NO_OBJECT if no object has the
 * number `ono`. */
enum oca_result oca_device_is_failing(struct oca_device *device, uint32_t ono, bool *failing) OCA_NONNULL;

/* Writes to `setting` how an object is set. Its kind is 1 for a state, 2 for a position, 3 for a Boolean and 4 for an
 * integer. `negative` is 1 if the number is below 0, and otherwise 0. `magnitude` is the number without its sign: 1 or
 * 2 for a state (AES70-2), 0 or 1 for a Boolean, and a position counted from 0. Returns OCA_DONE. Otherwise the first
 * of these that applies, and then nothing is changed or written. OCA_CLOSED if the device is closed. OCA_NOT_STARTED
 * before its start. OCA_NOTHING if the object is a block, or no object has the number `ono`. */
struct oca_setting { uint32_t kind, negative; uint64_t magnitude; };
enum oca_result oca_device_setting(struct oca_device *device, uint32_t ono, struct oca_setting *setting) OCA_NONNULL;

/* An object: its number, the number of the block that contains it (0 for the root), the number of its class (enum oca_class), and its role
 * of `role_size` bytes. A later version may have further words before the role. */
struct oca_object { uint32_t ono, container, class_number, role_size; uint8_t role[64]; };

/* Writes to `count` how many objects the device has, the root counted: 1 to 4,096. Returns OCA_DONE. OCA_CLOSED if the
 * device is closed, and OCA_NOT_STARTED before its start: then nothing is changed or written. */
enum oca_result oca_device_objects(struct oca_device *device, size_t *count) OCA_NONNULL;

/* Writes what the object with the index `index` is (from 0 for the root, in the order of adding), as oca_device_object
 * does: the first `words` words of struct oca_object to `object`, at most the four that this version has, and the first
 * `role_len` bytes of its role to `role`. A program calls oca_device_object. Returns OCA_DONE. Otherwise the first of
 * these that applies, and then nothing is changed or written. OCA_CLOSED if the device is closed. OCA_NOT_STARTED
 * before its start. OCA_NOTHING if there are `index` objects or fewer. */
enum oca_result oca_device_object_words(struct oca_device *device, size_t index, uint32_t *object, size_t words, uint8_t *role, size_t role_len) OCA_NONNULL;

/* Writes to `object` what the object with this index is: its number, the number of its block, its class and its role.
 * `index` counts from 0 for the root, in the order of adding. Returns OCA_DONE. Otherwise the first of these that
 * applies, and then nothing is changed or written. OCA_CLOSED if the device is closed. OCA_NOT_STARTED before its
 * start. OCA_NOTHING if there are `index` objects or fewer. */
static inline enum oca_result oca_device_object(struct oca_device *device, size_t index, struct oca_object *object) {
    return oca_device_object_words(device, index, &object->ono, offsetof(struct oca_object, role) / sizeof object->ono, object->role, sizeof object->role);
}

/* Writes the description of an object as it is now to `spec`, by its index: from 0 for the root, in the order of
 * adding. So a device saves what was set, by peers and at its local front panel. oca_device_object has the object's
 * number and the number of its block. An addition of this struct makes the same object again, except that it is not
 * locked and its hardware does not refuse; for the root oca_device_open_with does so. Returns OCA_DONE. Otherwise the
 * first of these that applies, and then nothing is changed or written. OCA_CLOSED if the device is closed.
 * OCA_NOT_STARTED before its start. OCA_BAD_SIZE if `spec->size` is not the struct's size (OCA_SPEC_INIT sets it).
 * OCA_NOTHING if there are `index` objects or fewer. */
enum oca_result oca_device_spec(struct oca_device *device, size_t index, struct oca_spec *spec) OCA_NONNULL;

/* Writes the description of the object with the number `ono` as it is now to `spec`, as oca_device_spec does by an
 * index. The lock is not in it, and neither is whether the hardware refuses. Returns OCA_DONE. Otherwise the first of
 * these that applies, and then nothing is changed or written. OCA_CLOSED if the device is closed. OCA_NOT_STARTED
 * before its start. OCA_BAD_SIZE if `spec->size` is not the struct's size (OCA_SPEC_INIT sets it). OCA_NOTHING if no
 * object has the number. */
enum oca_result oca_device_spec_of(struct oca_device *device, uint32_t ono, struct oca_spec *spec) OCA_NONNULL;

/* Writes to `reading` how the object with the number `ono` is set, and within which limits it can be set, as
 * oca_device_spec_of does: the value of a mute, a polarity, a switch, a Boolean or an integer. Returns OCA_DONE.
 * Otherwise the first of these that applies, and then nothing is changed or written. OCA_CLOSED if the device is
 * closed. OCA_NOT_STARTED before its start. OCA_NOTHING if no object has the number. OCA_NO_SETTING if it is a block. */
static inline enum oca_result oca_device_value(struct oca_device *device, uint32_t ono, struct oca_reading *reading) {
    struct oca_spec spec = OCA_SPEC_INIT;
    const enum oca_result found = oca_device_spec_of(device, ono, &spec);
    if (found != OCA_DONE) return found;
    if (spec.reading.value.class_number == OCA_CLASS_BLOCK) return OCA_NO_SETTING;
    *reading = spec.reading;
    return OCA_DONE;
}

/* Writes to `count` how many peers have a session at the device's present moment: 0 to 64. A session ends when the
 * clock finds that its peer was not heard for more than 120,000 ms. Returns OCA_DONE. OCA_CLOSED if the device is
 * closed, and OCA_NOT_STARTED before its start: then nothing is changed or written. */
enum oca_result oca_device_peers(struct oca_device *device, size_t *count) OCA_NONNULL;

/* Writes the address and the port of a peer that has a session. `index` counts from 0, in the order in which the
 * sessions were opened; if a session ends, the later ones move down by one. `ip` becomes an IPv4 address as a number,
 * the first byte highest, and `port` the UDP port. Returns OCA_DONE. Otherwise the first of these that applies, and
 * then nothing is changed or written. OCA_CLOSED if the device is closed. OCA_NOT_STARTED before its start. OCA_NOTHING
 * if there are `index` sessions or fewer. */
enum oca_result oca_device_peer(struct oca_device *device, size_t index, uint32_t *ip, uint16_t *port) OCA_NONNULL;

/* Writes what lock an object has, and the address and the port of the peer that has it. `kind` becomes 1 if the lock
 * keeps other peers from all access (LockTotal, AES70-2), and 2 if it lets them read (LockReadonly). `ip` becomes an
 * IPv4 address as a number, the first byte highest, and `port` the UDP port. The lock of a block does not lock its
 * members. Returns OCA_DONE. Otherwise the first of these that applies, and then nothing is changed or written.
 * OCA_CLOSED if the device is closed. OCA_NOT_STARTED before its start. OCA_NOTHING if the object is not locked, or no
 * object has the number `ono`. */
enum oca_result oca_device_lock(struct oca_device *device, uint32_t ono, uint32_t *kind, uint32_t *ip, uint16_t *port) OCA_NONNULL;

/* What a device keeps of an object over a stop: its number, the number of its block, and its description. There is no pointer in it, and no
 * byte between its fields. */
struct oca_kept { uint32_t ono, container; struct oca_spec spec; };

/* Writes to `kept` what to keep of each object over a stop, in the order of adding, the root first. `room` is for how
 * many objects there is room, and `count` becomes how many there are. No other call for the device may be made
 * meanwhile, by another thread. Returns OCA_DONE. OCA_CLOSED if the device is closed, and OCA_NOT_STARTED before its
 * start: then nothing is changed or written. OCA_TOO_SMALL if there is no room for all: then the first `room` of them
 * and `count` are written. */
enum oca_result oca_device_keep(struct oca_device *device, struct oca_kept *kept, size_t room, size_t *count) OCA_NONNULL;

/* Opens a device as oca_device_open_with does, with the root as it was kept. `room` is the number of objects, the root
 * counted: 1 to 4,096. What was kept under the number 100 in `kept`, an array of `count` (which may be 0), is brought
 * into a copy of `root` by oca_spec_restore. If nothing was kept under that number, or oca_spec_restore refuses it, the
 * root is as `root` says. The call takes the memory for the objects. Returns OCA_DONE. Otherwise the first of these
 * that applies, and then nothing is changed. OCA_OPEN if the struct is open already. OCA_BAD_SIZE if `room` is outside
 * its range, or `root` is of another size or has another byte in its zeros. OCA_BAD_TEXT if the label is not UTF-8 or
 * has more than 64 bytes. OCA_NO_MEMORY if memory was refused: then none is kept. */
enum oca_result oca_device_open_kept(struct oca_device *device, uint16_t room, const struct oca_spec *root, const struct oca_kept *kept, size_t count) OCA_CHECKED;

/* Adds an object to the tree as oca_device_add does, before the start, but as it was kept. `container` is the number of
 * the block that contains it. What was kept under the number `ono` in `kept`, an array of `count` (which may be 0), is
 * brought into a copy of `spec` by oca_spec_restore. If nothing was kept under that number, or oca_spec_restore refuses
 * it, the object is as `spec` says. Returns OCA_DONE. Otherwise the first of these that applies, and then nothing is
 * changed. OCA_CLOSED if the device is closed. OCA_STARTED after its start. OCA_BAD_SIZE if the struct is of another
 * size or has another byte in its zeros. OCA_BAD_RANGE if it has more than 16 positions. OCA_BAD_TEXT if the role, the
 * label or a name is not UTF-8 or has more than 64 bytes. OCA_NO_VALUE if the reading is none that an object can have.
 * OCA_FULL if there is no room for another object. OCA_RESERVED if `ono` is below 4,096. OCA_TAKEN if an object has
 * that number. OCA_NO_SUCH_BLOCK if no block has the number `container`. OCA_TOO_DEEP if the object would be at depth 9
 * (the root is at depth 1). OCA_BAD_TEXT if the role is empty. OCA_BAD_RANGE if the setting is outside its limits, or a
 * switch has no position. */
enum oca_result oca_device_add_kept(struct oca_device *device, uint32_t container, uint32_t ono, const struct oca_spec *spec, const struct oca_kept *kept, size_t count) OCA_CHECKED;

/* ---- the store ---- */

/* A file that holds what a device keeps over a stop, of POSIX systems; OCA_NO_POSIX leaves it out of this header, and a program that does
 * not call it does not link it. */
#ifndef OCA_NO_POSIX

/* The result of a call of a store. If it is OCA_STORE_SYSTEM, a call of the system failed: the store has its name and its errno. */
enum oca_store_result {
    OCA_STORE_DONE = 0,
    OCA_STORE_NOTHING = 1,   /* nothing was stored yet: there is no file */
    OCA_STORE_HELD = 2,      /* another store has the file open */
    OCA_STORE_NO_FILE = 3,   /* FILE, FILE.new or FILE.lock is there and no plain file: a folder, a FIFO, a symbolic link */
    OCA_STORE_BROKEN = 4,    /* the file is not whole, or not of this library */
    OCA_STORE_TOO_SMALL = 5, /* the file has more bytes than there is room for */
    OCA_STORE_CLOSED = 6,    /* the store is closed */
    OCA_STORE_OPEN = 7,      /* it is open */
    OCA_STORE_BAD_PATH = 8,  /* the path is empty, ends with a slash, or has a name above 250 bytes or a folder above 4,095 */
    OCA_STORE_NULL = 9,      /* a pointer is null */
    OCA_STORE_SYSTEM = 10    /* a call of the system failed */
};

/* Returns a result of a store in words, for a log. `result` is a number of enum oca_store_result; for any other number
 * the words are "a result of a later version". The string is constant: it is not freed. */
static inline const char *oca_store_text(uint32_t result) {
    switch (result) {
    case OCA_STORE_DONE: return "done";
    case OCA_STORE_NOTHING: return "nothing was stored yet";
    case OCA_STORE_HELD: return "another device has the file";
    case OCA_STORE_NO_FILE: return "it is no plain file";
    case OCA_STORE_BROKEN: return "it is not whole, or not of this program";
    case OCA_STORE_TOO_SMALL: return "the file has more bytes than there is room for";
    case OCA_STORE_CLOSED: return "the store is closed";
    case OCA_STORE_OPEN: return "the store is open";
    case OCA_STORE_BAD_PATH: return "the path names no file";
    case OCA_STORE_NULL: return "a pointer is null";
    case OCA_STORE_SYSTEM: return "a call of the system failed";
    default: return "a result of a later version";
    }
}

/* A store: zeroed, it is closed; struct oca_store store = OCA_STORE_INIT; If its last call answered OCA_STORE_SYSTEM, `call` is the name of
 * the call of the system that failed, such as "fsync", and `error` its errno; otherwise they are a null pointer and 0. The other fields are
 * its own. One call at a time; the struct may be moved, but never copied and both copies used. */
struct oca_store { bool is_open; int folder, lock, error; const char *call; char name[256]; };
#define OCA_STORE_INIT {false, 0, 0, 0, NULL, {0}}

/* Opens the store of the file `path` (FILE) for this program alone, until it is closed or the program ends. It locks
 * the file FILE.lock beside FILE, which is made and stays. Nothing is written to FILE, and FILE need not be there.
 * Returns OCA_STORE_DONE. Otherwise the first of these that applies. OCA_STORE_NULL if a pointer is null.
 * OCA_STORE_OPEN if the store is open: it stays open. After all others the store is closed. OCA_STORE_BAD_PATH if the
 * path is empty, ends with a slash, or has a name above 250 bytes or a folder above 4,095. OCA_STORE_SYSTEM if its
 * folder can't be opened. OCA_STORE_NO_FILE if FILE, FILE.new or FILE.lock is no plain file. OCA_STORE_SYSTEM if
 * FILE.lock can't be made. OCA_STORE_HELD if another store has the file open. */
enum oca_store_result oca_store_open(const char *path, struct oca_store *store) OCA_LOOKED_AT;

/* Reads what was stored last in the file of the store (FILE) into `out`, which has room for `room` bytes, and writes
 * how many bytes it is to `length`. FILE stays as it is. Returns OCA_STORE_DONE. After any other result `out` may have
 * anything, and the length is 0; only after OCA_STORE_TOO_SMALL it is the number of bytes that were stored.
 * OCA_STORE_NULL if a pointer is null. OCA_STORE_CLOSED if the store is closed. OCA_STORE_NOTHING if there is no file,
 * as on a new device. OCA_STORE_NO_FILE if it is no plain file. OCA_STORE_BROKEN if it is empty, cut off, longer than
 * it was or changed, or is something else. OCA_STORE_TOO_SMALL if it has more bytes than `room`. OCA_STORE_SYSTEM if a
 * call of the system fails. */
enum oca_store_result oca_store_load(struct oca_store *store, void *out, size_t room, size_t *length) OCA_LOOKED_AT;

/* Stores `length` bytes in the file of the store (FILE), in the place of what was stored before. They are written to
 * FILE.new, which is synchronized to the disk and takes the place of FILE; then the folder is synchronized. FILE keeps
 * its mode and its owner. After OCA_STORE_DONE the bytes are there after any stop, even a power cut, if the disk keeps
 * what it reports as written. OCA_STORE_NULL if a pointer is null (`bytes` may be if `length` is 0), OCA_STORE_CLOSED
 * if the store is closed: then nothing is done. OCA_STORE_NO_FILE if FILE is no plain file. OCA_STORE_SYSTEM if a call
 * of the system fails. FILE is then whole: it has what was stored before, or these bytes if only synchronizing the
 * folder failed. */
enum oca_store_result oca_store_save(struct oca_store *store, const void *bytes, size_t length) OCA_LOOKED_AT;

/* Closes a store and releases its lock. The file of the store and the file of its lock stay. A closed store stays
 * closed, and for a null pointer nothing is done. */
void oca_store_close(struct oca_store *store);
#endif

/* ---- the link ---- */

/* A link to one device. A command is in flight from its submit until its answer is taken; its handle is its number
 * (AES70-3). Each new handle is below the lowest handle in flight plus the span (1 to 32), so at most as many commands
 * as the span are in flight. The link is lost once a command got no answer to 20 transmissions, and late while a
 * command that was submitted more than 15,000 ms ago has no answer. A closed link: struct oca_link link =
 * OCA_LINK_INIT; */
struct oca_link { void *at; bool is_open; };
#define OCA_LINK_INIT {NULL, false}

/* Opens a link to the device at the address `ip` (an IPv4 address as a number, the first byte highest) and the port
 * `port`, and takes the memory for the link. Nothing is sent. `now` is the moment, in milliseconds of the caller's
 * clock. The link's first command gets the handle `first_handle`, and each later command the next one. `first_handle`
 * must be above every handle that was used from the same address and port. Handles from before a pause of more
 * than two minutes, in which nothing was sent from there and the device did not stand still, do not count. `span`
 * (1 to 32; 16 is usual) limits the commands in flight: a command is refused while its handle would not be below the
 * lowest handle whose answer was not taken yet, plus the span. Returns OCA_DONE. Otherwise the first of these that applies, and then nothing is changed.
 * OCA_OPEN if the struct is open already. OCA_BAD_SIZE if the span is outside its range. OCA_NO_MEMORY if memory was
 * refused. */
enum oca_result oca_link_open(struct oca_link *link, uint32_t ip, uint16_t port, uint32_t first_handle, uint64_t now, uint8_t span) OCA_CHECKED;

/* Opens a small link, with the arguments of oca_link_open: a link in at most 12,304 bytes, for a panel that sets and
 * reads single values. All calls of a link work on it. The memory is taken in two blocks, one of at most 12,288 bytes
 * and one of 16 bytes. A command may have 64 bytes of parameters; a longer one is refused with OCA_TOO_LONG. An answer
 * may have 264 bytes of parameters: for a longer one oca_link_take writes OCA_STATUS_BUFFER_OVERFLOW to `status`, 0 to
 * `count` and 0 to `len`. The device then executed the command or refused it, and what it said is not known. Returns
 * OCA_DONE. Otherwise the first of these that applies, and then nothing is changed. OCA_OPEN if the struct is open
 * already. OCA_BAD_SIZE if the span is outside its range. OCA_NO_MEMORY if memory was refused. */
enum oca_result oca_link_open_small(struct oca_link *link, uint32_t ip, uint16_t port, uint32_t first_handle, uint64_t now, uint8_t span) OCA_CHECKED;

/* Closes a link and frees its memory. Nothing is sent, and answers that were not taken are lost. The device may still
 * carry out commands that were sent. A closed link stays closed, and for a null pointer nothing is done. */
void oca_link_close(struct oca_link *link);

/* Closes a link as oca_link_close does, which a program calls. */
void oca_link_shut(struct oca_link *link) OCA_NONNULL;

/* Submits a command at the moment `now`, in milliseconds, and writes its handle to `handle`. `target` is the number of
 * the object, `level` and `index` name the method (DefLevel and MethodIndex, AES70-2), `count` is ParamCount, and
 * `params` are the encoded parameters, at most 1,445 bytes (for a small link 64), which are not checked. The call sends
 * nothing: call oca_link_due then. Returns OCA_DONE. Otherwise the first of these that applies, and then nothing is
 * changed, written or sent. OCA_CLOSED if the link is closed. OCA_LOST if the link is lost. OCA_HANDLES_SPENT if a
 * command has the handle 4294967295 already. OCA_SPAN_FULL if the next handle is not below the lowest handle whose
 * answer was not taken yet, plus the span. OCA_TOO_LONG if the parameters have more bytes. */
enum oca_result oca_link_submit(struct oca_link *link, uint32_t target, uint16_t level, uint16_t index, uint8_t count, const uint8_t *params, size_t params_len, uint64_t now, uint32_t *handle) OCA_CHECKED;

/* Submits the request `request`, which sets or reads a value, at the moment `now` in milliseconds, and writes the
 * handle of the command to `handle`. `target` is the number of the object. oca_set_request or oca_get_request makes the
 * request. The call sends nothing: call oca_link_due then. Returns OCA_DONE. Otherwise the first of these that applies,
 * and then nothing is changed, written or sent. OCA_CLOSED if the link is closed. OCA_LOST if the link is lost.
 * OCA_HANDLES_SPENT if a command has the handle 4294967295 already. OCA_SPAN_FULL if the next handle is not below the
 * lowest handle whose answer was not taken yet, plus the span. OCA_TOO_LONG if the parameters have more than 1,445
 * bytes (for a small link 64). */
static inline enum oca_result oca_link_ask(struct oca_link *link, uint32_t target, const struct oca_request *request, uint64_t now, uint32_t *handle) {
    return oca_link_submit(link, target, request->level, request->index, request->count, request->params, request->size, now, handle);
}

/* Submits a command by the method `method` (enum oca_method) at the moment `now`, in milliseconds, and writes the
 * handle of the command to `handle`. `target` is the number of the object, `count` is ParamCount, and `params` are the
 * encoded parameters (docs/PROTOCOL.md, section 3), at most 1,445 bytes (for a small link 64), which are not checked.
 * The call sends nothing: call oca_link_due then. Returns OCA_DONE. Otherwise the first of these that applies, and then
 * nothing is changed, written or sent. OCA_CLOSED if the link is closed. OCA_LOST if the link is lost.
 * OCA_HANDLES_SPENT if a command has the handle 4294967295 already. OCA_SPAN_FULL if the next handle is not below the
 * lowest handle whose answer was not taken yet, plus the span. OCA_TOO_LONG if the parameters have more bytes. */
static inline enum oca_result oca_link_call(struct oca_link *link, uint32_t target, uint32_t method, uint8_t count, const uint8_t *params, size_t params_len, uint64_t now, uint32_t *handle) {
    return oca_link_submit(link, target, (uint16_t)(method >> 16), (uint16_t)method, count, params, params_len, now, handle);
}

/* Puts what is due at the moment `now`, in milliseconds, to the front of `out`, for the caller to send to the device.
 * Call it until `due` is OCA_DUE_NOTHING or OCA_DUE_LOST. `len` becomes the size in bytes, and `handle` the handle of
 * the command. `due` becomes OCA_DUE_COMMAND for the command with the lowest handle that is due: it has no answer, and
 * was never sent or was last sent 250 ms ago or earlier. OCA_DUE_LOST if that command was sent 20 times, and at each
 * later call. OCA_DUE_KEEP_ALIVE if no command is due, and nothing was sent for 2,500 ms: `handle` is then 0.
 * OCA_DUE_NOTHING if nothing is due. For OCA_DUE_NOTHING and OCA_DUE_LOST `len` and `handle` are 0. `out` must have
 * room for 1,472 bytes. Returns OCA_DONE. OCA_CLOSED if the link is closed, and OCA_TOO_SMALL if `out` has fewer bytes,
 * whatever is due: then nothing is changed or written. */
enum oca_due { OCA_DUE_NOTHING = 0, OCA_DUE_COMMAND = 1, OCA_DUE_KEEP_ALIVE = 2, OCA_DUE_LOST = 3 };
enum oca_result oca_link_due(struct oca_link *link, uint64_t now, uint8_t *out, size_t out_len, size_t *len, uint32_t *due, uint32_t *handle) OCA_NONNULL;

/* Handles the datagram `bytes`, of `len` bytes, that came from the address `ip` and the port `port` at the moment
 * `now`, in milliseconds. `reception` becomes OCA_STRANGER if it came from another address or port than the device's.
 * Otherwise OCA_MALFORMED if it is not well-formed (AES70-3). Otherwise OCA_ANSWERED if commands got their first answer
 * in it, and OCA_NOTHING_NEW if none did. `answered` becomes how many commands got theirs. Each such answer is stored:
 * oca_link_take takes it. A small link stores an answer with more than 264 bytes of parameters without them, with
 * OCA_STATUS_BUFFER_OVERFLOW. In all cases the link's clock moves on to `now`; a stranger's or malformed datagram
 * changes nothing else. Returns OCA_DONE. OCA_CLOSED if the link is closed: then nothing is changed or written. */
enum oca_reception { OCA_NOTHING_NEW = 0, OCA_ANSWERED = 1, OCA_STRANGER = 2, OCA_MALFORMED = 3 };
enum oca_result oca_link_datagram(struct oca_link *link, uint32_t ip, uint16_t port, const uint8_t *bytes, size_t len, uint64_t now, uint32_t *reception, uint32_t *answered) OCA_NONNULL;

/* Writes to `moment` the earliest moment, in milliseconds, at which oca_link_due has something to send or finds the
 * link lost. A loop may wait until then. The moment is not before the latest one that the link was given; for a lost
 * link it is that latest one. Returns OCA_DONE. OCA_CLOSED if the link is closed, and OCA_NOTHING if the moment does
 * not fit 64 bits: then nothing is changed or written. */
enum oca_result oca_link_next_due(struct oca_link *link, uint64_t *moment) OCA_NONNULL;

/* Writes to `handle` the lowest handle whose answer came and was not taken yet. The answer stays: oca_link_take takes
 * it. Returns OCA_DONE. OCA_CLOSED if the link is closed, and OCA_NOTHING if no answer waits, as in a new link: then
 * nothing is changed or written. */
enum oca_result oca_link_answered(struct oca_link *link, uint32_t *handle) OCA_NONNULL;

/* Writes to `in_flight` whether a command with the handle `handle` was submitted and has no answer yet. It is false for
 * a command whose answer came and was not taken, though that command keeps its place in the span. It is false too for a
 * handle that no command has. If it is false and oca_link_take finds no answer, the answer was taken before, or no
 * command has that handle. Returns OCA_DONE. OCA_CLOSED if the link is closed: then nothing is changed or written. */
enum oca_result oca_link_in_flight(struct oca_link *link, uint32_t handle, bool *in_flight) OCA_NONNULL;

/* Writes to `handle` the handle that the next command gets: at first the handle that the link was opened with. A link
 * that is opened after this one to the same device must begin there or above. Returns OCA_DONE. OCA_CLOSED if the link
 * is closed, and OCA_NOTHING once a command has the handle 4294967295: then nothing is changed or written. */
enum oca_result oca_link_next_handle(struct oca_link *link, uint32_t *handle) OCA_NONNULL;

/* Writes to `moment` the moment, in milliseconds, at which the last well-formed datagram came from the device. Before
 * the first one it is the moment of the opening. Returns OCA_DONE. OCA_CLOSED if the link is closed: then nothing is
 * changed or written. */
enum oca_result oca_link_last_heard(struct oca_link *link, uint64_t *moment) OCA_NONNULL;

/* Writes to `lost` whether the link is lost: a command got no answer to 20 transmissions, and oca_link_due found that.
 * False at first. A lost link stays lost, takes no command and sends nothing more; answers that still come are stored.
 * Returns OCA_DONE. OCA_CLOSED if the link is closed: then nothing is changed or written. */
enum oca_result oca_link_is_lost(struct oca_link *link, bool *lost) OCA_NONNULL;

/* Writes to `late` whether the link is late at the moment `now`, in milliseconds: a command was submitted more than
 * 15,000 ms ago and has no answer, whether it was sent or not (a rule of the profile). That is so, for example, if the
 * program was suspended. No command may act so late: then do not call oca_link_due, and open a new link. Returns
 * OCA_DONE. OCA_CLOSED if the link is closed: then nothing is changed or written. */
enum oca_result oca_link_is_late(struct oca_link *link, uint64_t now, bool *late) OCA_NONNULL;

/* Takes the answer to the command under the handle `handle`, and removes the command. Writes the number of the answer's
 * status (AES70-2, OcaStatus) to `status`, its ParamCount (`count`), its parameters to the front of `out`, and their
 * size in bytes (`len`). `out` must have room for 1,452 bytes. Returns OCA_DONE. Otherwise the first of these that
 * applies, and then nothing is changed or written. OCA_CLOSED if the link is closed. OCA_TOO_SMALL if `out` has fewer
 * bytes, whatever the answer. OCA_NOTHING if no answer is there under the handle. */
enum oca_result oca_link_take(struct oca_link *link, uint32_t handle, uint32_t *status, uint32_t *count, uint8_t *out, size_t out_len, size_t *len) OCA_NONNULL;

/* ---- the panel ---- */

/* The caller's socket, by which a panel reaches its device: first the size of the struct, then the `context` with which each of the three
 * functions is called, then the functions. `now` reads the clock. `send` sends a datagram to the device; one that is not sent counts as
 * lost. `receive` waits for a datagram until the moment `until` at most, puts it into `out` with its length and its sender, and returns
 * whether there was one. A datagram that is longer than `out_len` has that length or more, and is dropped. It may return sooner that there
 * is none. None of them calls the panel or its link. */
struct oca_end {
    size_t size;
    void *context;
    uint64_t (*now)(void *context);
    void (*send)(void *context, const uint8_t *bytes, size_t len);
    bool (*receive)(void *context, uint64_t until, uint8_t *out, size_t out_len, size_t *len, uint32_t *ip, uint16_t *port);
};

/* A panel: a link to one device, over the caller's socket, and for how many milliseconds a call waits for its answer.
 * The words of struct oca_link (in flight, handle, span, lost, late) are those of a panel too. A lost or late panel
 * takes no command and sends nothing. A closed panel: struct oca_panel panel = OCA_PANEL_INIT; */
struct oca_panel { struct oca_link link; struct oca_end end; uint32_t wait_ms; };
#define OCA_PANEL_INIT {OCA_LINK_INIT, {0, NULL, NULL, NULL, NULL}, 0}

/* The outcome of what was asked. OCA_ASKED_DONE: the device did it. OCA_ASKED_REFUSED: the device refused, with a status of enum
 * oca_status. OCA_ASKED_UNREADABLE: its answer is none to what was asked. OCA_ASKED_NO_VALUE: nothing of the object's class can be asked
 * so, or there is no such value; it was not sent. OCA_ASKED_NOT_SENT: the link refused it, with a result of enum oca_result. OCA_ASKED_LOST
 * and OCA_ASKED_LATE: the link is lost, or late, and sends nothing any more. It may have been carried out, or not, and a new panel must be
 * opened. OCA_ASKED_UNANSWERED: no answer came in the time that the panel waits. It stays in flight, under the handle in `result`: wait for
 * it again by oca_panel_finish. Until its answer is taken, no command can be begun whose handle is the span or more above it
 * (OCA_SPAN_FULL). If the panel waits for 10,500 ms, longer than a link retransmits, an answer comes or the link is lost.
 * OCA_ASKED_NO_HANDLE: there is no command under the handle, which `result` has: its answer was taken, or it was never begun. */
enum oca_asked {
    OCA_ASKED_DONE = 0, OCA_ASKED_REFUSED = 1, OCA_ASKED_UNREADABLE = 2, OCA_ASKED_NO_VALUE = 3, OCA_ASKED_NOT_SENT = 4, OCA_ASKED_LOST = 5,
    OCA_ASKED_LATE = 6, OCA_ASKED_UNANSWERED = 7, OCA_ASKED_NO_HANDLE = 8
};
struct oca_outcome { uint32_t asked, status, result; };

/* Returns the outcome `outcome` in words, for a log: the name of a status if the device refused, why the command was
 * not sent, or another outcome, such as "no answer". For any other number the words are "an outcome of a later
 * version". The string is constant: it is not freed. */
static inline const char *oca_outcome_text(struct oca_outcome outcome) {
    static const char *const texts[] = {"done", "a status of a later version", "unreadable answer", "no value", "not sent", "lost", "late", "no answer", "no such handle"};
    if (outcome.asked == OCA_ASKED_REFUSED && oca_status_text(outcome.status)) return oca_status_text(outcome.status);
    if (outcome.asked == OCA_ASKED_NOT_SENT) return oca_result_text(outcome.result);
    return outcome.asked < sizeof texts / sizeof *texts ? texts[outcome.asked] : "an outcome of a later version";
}
static inline struct oca_outcome oca_outcome_of(uint32_t asked, uint32_t status, uint32_t result) {
    struct oca_outcome outcome = {asked, status, result};
    return outcome;
}

/* Returns a port to bind the panel's socket to, the other port of the two, and a first handle that is safe there, by
 * the time of day. `seconds` and `microseconds` are the time since the beginning of 1970, which must not be set back.
 * The port is 65001 or 65002. The handle is below 2,147,483,648 and rises by 100,000 a second, faster than commands are
 * answered: so each run at that port begins above the last one. When it would reach 2,147,483,648, every six hours, it
 * begins again at 0, with the other port. So a program that runs often needs one session of the device, and not one
 * more for each run. `other` is the port of the next six hours: if `port` is in use, do not bind `other`, but port 0.
 */
struct oca_own_port { uint16_t port, other; uint32_t first_handle; };
typedef struct oca_own_port oca_own_port_type; /* the struct's name in C++, where the function hides it */
#if defined(__cplusplus) && defined(__GNUC__)
#pragma GCC diagnostic push
#pragma GCC diagnostic ignored "-Wshadow"
#endif
static inline struct oca_own_port oca_own_port(uint64_t seconds, uint32_t microseconds) {
    const uint64_t since = seconds * 100000 + microseconds / 10;
    const uint32_t turn = since >> 31 & 1;
    struct oca_own_port own = {(uint16_t)(65001 + turn), (uint16_t)(65002 - turn), (uint32_t)(since & 0x7fffffff)};
    return own;
}
#if defined(__cplusplus) && defined(__GNUC__)
#pragma GCC diagnostic pop
#endif

/* Opens a panel for the device at the address `ip` (an IPv4 address as a number, the first byte highest) and the port
 * `port`. `end` is the caller's socket, which is copied. The call takes the memory of a link, and sends nothing. The
 * first command gets the handle `first_handle` (oca_own_port returns one). If the device heard the socket's port
 * before, it must be above all handles that were used there. Handles from before the last pause of more than two
 * minutes, in which nothing was sent from the port and the device did not stand still, do not count. `span` (1 to 32)
 * limits the commands in flight, as in oca_link_open. A call waits for its answer for `wait_ms` milliseconds by the clock of the end, whatever else comes;
 * with 0 no call waits. 10,500 ms are longer than a link retransmits. A wait also ends if the clock shows no later
 * moment in 100,000 receives. For a panel over a small link do not call oca_panel_open: set the fields `end` and
 * `wait_ms` of a closed panel, and open its field `link` by oca_link_open_small. Returns OCA_DONE. Otherwise the first
 * of these that applies. OCA_OPEN if the panel is open: then nothing is changed. OCA_BAD_SIZE if `end` is of another
 * size, or the span is outside its range. OCA_NO_MEMORY if memory was refused. After the last two the panel is closed.
 */
enum oca_result oca_panel_open(struct oca_panel *panel, const struct oca_end *end, uint32_t ip, uint16_t port, uint32_t first_handle, uint8_t span, uint32_t wait_ms);

/* Closes a panel and frees its memory. Nothing is sent, and answers that were not taken are lost. The device may still
 * carry out commands that were sent. The caller's socket stays open. A closed panel stays closed, and for a null
 * pointer nothing is done. */
void oca_panel_close(struct oca_panel *panel);

/* Returns whether the panel can go on: OCA_ASKED_DONE if it can. OCA_ASKED_NOT_SENT with OCA_CLOSED in `result` if the
 * panel is closed. OCA_ASKED_LOST if its link is lost: a command got no answer to 20 transmissions. OCA_ASKED_LATE if
 * the link is late: a command that was submitted more than 15,000 ms ago has no answer. Nothing is received, sent or
 * changed. */
struct oca_outcome oca_panel_state(struct oca_panel *panel);

/* Takes one turn: receives once, for at most 50 ms or until something is due, and sends what is due, keep-alives too.
 * Returns what oca_panel_state returns: OCA_ASKED_DONE if the panel can go on, and OCA_ASKED_LOST or OCA_ASKED_LATE
 * even if only this turn finds it. A lost or late panel still receives, and sends nothing. A closed panel does nothing
 * and returns OCA_ASKED_NOT_SENT with OCA_CLOSED in `result`. */
struct oca_outcome oca_panel_turn(struct oca_panel *panel);

/* Takes one turn that does not wait: receives what has come, at most 64 datagrams, and sends what is due, keep-alives
 * too. It is for a loop of the program's own (Qt, epoll): call it when the socket's file is readable, and at the moment
 * of oca_link_next_due(&panel->link, &moment). Then take the answers by oca_panel_try_finish. Returns what
 * oca_panel_turn returns. */
struct oca_outcome oca_panel_poll(struct oca_panel *panel);

/* Submits a command by the method `method` (enum oca_method), sends it at once and writes its handle to `handle`. `ono`
 * is the number of the object, `count` is ParamCount, and `params` are the encoded parameters (docs/PROTOCOL.md,
 * section 3), at most 1,445 bytes (over a small link 64). The call does not wait: oca_panel_finish does. Several
 * commands can be in flight at once. Returns OCA_DONE, also if the link becomes lost in this call and the command is
 * not sent. Otherwise the first of these that applies, and then nothing is changed or sent. OCA_CLOSED if the panel is
 * closed. OCA_LOST if its link is lost or late. OCA_HANDLES_SPENT if a command has the handle 4294967295 already.
 * OCA_SPAN_FULL if the next handle is not below the lowest handle whose answer was not taken yet, plus the span.
 * OCA_TOO_LONG if the parameters have more bytes. */
enum oca_result oca_panel_begin(struct oca_panel *panel, uint32_t ono, uint32_t method, uint8_t count, const uint8_t *params, size_t params_len, uint32_t *handle);

/* Submits the command that sets an object to `value`, by the set method of the value's class (AES70-2), sends it at
 * once and writes its handle to `handle`. `ono` is the number of the object. The call does not wait:
 * oca_panel_finish_set does. Returns OCA_DONE, also if the link becomes lost in this call and the command is not sent.
 * Otherwise the first of these that applies, and then nothing is changed or sent. OCA_NO_VALUE if the struct holds no
 * value. OCA_CLOSED if the panel is closed. OCA_LOST if its link is lost or late. OCA_HANDLES_SPENT if a command has
 * the handle 4294967295 already. OCA_SPAN_FULL if the next handle is not below the lowest handle whose answer was not
 * taken yet, plus the span. */
enum oca_result oca_panel_begin_set(struct oca_panel *panel, uint32_t ono, struct oca_value value, uint32_t *handle);

/* Submits the command that reads how an object is set, by the get method of its class (AES70-2), sends it at once and
 * writes its handle to `handle`. `ono` is the number of the object, and `class_number` that of its class (enum
 * oca_class). The call does not wait: oca_panel_finish_get does. Returns OCA_DONE, also if the link becomes lost in
 * this call and the command is not sent. Otherwise the first of these that applies, and then nothing is changed or
 * sent. OCA_NO_VALUE if no class has the number, or it is that of a block. OCA_CLOSED if the panel is closed. OCA_LOST
 * if its link is lost or late. OCA_HANDLES_SPENT if a command has the handle 4294967295 already. OCA_SPAN_FULL if the
 * next handle is not below the lowest handle whose answer was not taken yet, plus the span. */
enum oca_result oca_panel_begin_get(struct oca_panel *panel, uint32_t ono, uint32_t class_number, uint32_t *handle);

/* The answer to a command: ParamCount, and the bytes of its parameters (`params_len` of them, at most 1,452). They are
 * not checked. */
struct oca_answer { uint32_t count; size_t params_len; uint8_t params[OCA_MOST_ANSWER]; };

/* Returns the outcome of the command that was begun under the handle `handle` if it is known already, and does not
 * wait. Nothing is received or sent. OCA_ASKED_DONE if the answer is there with the status OK, OCA_ASKED_REFUSED with
 * its status if it has another one: the answer is then taken, and `answer` is written. OCA_ASKED_NO_HANDLE if no
 * command has the handle, or its answer was taken before. OCA_ASKED_LOST or OCA_ASKED_LATE if there is no answer and
 * the panel's link is lost or late. OCA_ASKED_NOT_SENT with OCA_CLOSED in `result` if the panel is closed.
 * OCA_ASKED_UNANSWERED if no answer is there yet: the command stays in flight. After all but the first two nothing is
 * changed. */
struct oca_outcome oca_panel_try_finish(struct oca_panel *panel, uint32_t handle, struct oca_answer *answer);

/* Waits for the answer to the command that was begun under the handle `handle`, for at most the panel's `wait_ms`
 * milliseconds, and takes it. The panel takes turns meanwhile. OCA_ASKED_DONE if the status is OK, OCA_ASKED_REFUSED
 * with the status if it is another one: then `answer` is written and the command is removed. OCA_ASKED_NO_HANDLE if no
 * command has the handle, or its answer was taken before. OCA_ASKED_LOST or OCA_ASKED_LATE if the panel's link is lost
 * or late and no answer is there: the command may have been carried out. OCA_ASKED_NOT_SENT with OCA_CLOSED in `result`
 * if the panel is closed. OCA_ASKED_UNANSWERED if no answer came in time: the command stays in flight, is sent again,
 * and can be waited for again. */
struct oca_outcome oca_panel_finish(struct oca_panel *panel, uint32_t handle, struct oca_answer *answer);

/* The commands of a panel that are in flight, at most 32, in the order in which they were begun. Each has a pointer of
 * the caller's (`item`). A zeroed struct has none. */
struct oca_flight { uint32_t first, count, handles[32]; void *items[32]; };

/* Adds a command that was begun to the end of the commands in flight. `handle` is what the call that began it wrote,
 * and `item` comes back with its outcome; it may be null. Returns OCA_DONE. OCA_SPAN_FULL if there are 32 already: then
 * nothing is changed. A panel never has more in flight, if each command that was begun is added. */
enum oca_result oca_flight_push(struct oca_flight *flight, uint32_t handle, void *item);

/* Waits for the outcome of the first of the commands in flight, for at most the panel's `wait_ms` milliseconds, and
 * returns it. OCA_ASKED_DONE if the status of its answer is OK, OCA_ASKED_REFUSED with the status if it is another one.
 * OCA_ASKED_NO_HANDLE if its answer was taken before. OCA_ASKED_LOST or OCA_ASKED_LATE if the panel's link is lost or
 * late and no answer is there: the command may have been carried out. OCA_ASKED_NOT_SENT with OCA_CLOSED in `result` if
 * the panel is closed. OCA_ASKED_UNANSWERED if no answer came in time. `item` becomes what oca_flight_push was given.
 * `answer` is written for OCA_ASKED_DONE and OCA_ASKED_REFUSED alone. The command is then removed; after
 * OCA_ASKED_UNANSWERED it stays the first. OCA_ASKED_NO_HANDLE with 0 in `result` if there is no command: then nothing
 * is written. */
struct oca_outcome oca_flight_finish(struct oca_flight *flight, struct oca_panel *panel, struct oca_answer *answer, void **item);

/* Returns the outcome of the first of the commands in flight if it is known already, and does not wait. OCA_ASKED_DONE
 * if the status of its answer is OK, OCA_ASKED_REFUSED with the status if it is another one. OCA_ASKED_NO_HANDLE if its
 * answer was taken before. OCA_ASKED_LOST or OCA_ASKED_LATE if the panel's link is lost or late and no answer is there:
 * the command may have been carried out. OCA_ASKED_NOT_SENT with OCA_CLOSED in `result` if the panel is closed. `item`
 * becomes what oca_flight_push was given. `answer` is written for OCA_ASKED_DONE and OCA_ASKED_REFUSED alone. The
 * command is then removed; after OCA_ASKED_UNANSWERED, if no answer is there yet, it stays the first.
 * OCA_ASKED_NO_HANDLE with 0 in `result` if there is no command: then nothing is written. */
struct oca_outcome oca_flight_try_finish(struct oca_flight *flight, struct oca_panel *panel, struct oca_answer *answer, void **item);

/* Takes the outcome of a command in flight that is known already, of several the one of the oldest, and does not wait. The
 * command is then removed, `item` becomes what oca_flight_push was given for it, and the others keep their order. Returns
 * OCA_ASKED_DONE if the status of its answer is OK, OCA_ASKED_REFUSED with the status if it is another one.
 * OCA_ASKED_NO_HANDLE if its answer was taken before. OCA_ASKED_LOST or OCA_ASKED_LATE if the panel's link is lost or late
 * and no answer is there: the command may have been carried out. OCA_ASKED_NOT_SENT with OCA_CLOSED in `result` if the
 * panel is closed. `answer` is written for OCA_ASKED_DONE and OCA_ASKED_REFUSED alone. OCA_ASKED_UNANSWERED if none is
 * known yet, and OCA_ASKED_NO_HANDLE with 0 in `result` if there is no command: then nothing is removed or written. */
struct oca_outcome oca_flight_try_any(struct oca_flight *flight, struct oca_panel *panel, struct oca_answer *answer, void **item);

/* Sends a command by the method `method` (enum oca_method), and waits for its answer. `ono` is the number of the
 * object, `count` is ParamCount, and `params` are the encoded parameters (docs/PROTOCOL.md, section 3), at most 1,445
 * bytes (over a small link 64). The call waits for the answer for at most the panel's `wait_ms` milliseconds. Returns
 * OCA_ASKED_DONE if the answer's status is OK. Otherwise the outcome is one of these (enum oca_asked). OCA_ASKED_LOST
 * or OCA_ASKED_LATE if the panel's link is lost or late: a command that was sent may have been carried out.
 * OCA_ASKED_NOT_SENT with OCA_CLOSED, OCA_HANDLES_SPENT or OCA_SPAN_FULL in `result`: that command was not sent.
 * OCA_ASKED_UNANSWERED if no answer came in time: the command stays in flight under the handle in `result`.
 * OCA_ASKED_REFUSED if the answer's status is not OK, with that status. With more bytes it is OCA_ASKED_NOT_SENT with
 * OCA_TOO_LONG. `answer` is written for OCA_ASKED_DONE and OCA_ASKED_REFUSED alone. */
struct oca_outcome oca_panel_ask(struct oca_panel *panel, uint32_t ono, uint32_t method, uint8_t count, const uint8_t *params, size_t params_len, struct oca_answer *answer);

/* Sends a command by the method `method` (enum oca_method) without parameters, and waits for its answer. `ono` is the
 * number of the object. The call waits for the answer for at most the panel's `wait_ms` milliseconds. Returns
 * OCA_ASKED_DONE if the answer's status is OK. Otherwise the outcome is one of these (enum oca_asked). OCA_ASKED_LOST
 * or OCA_ASKED_LATE if the panel's link is lost or late: a command that was sent may have been carried out.
 * OCA_ASKED_NOT_SENT with OCA_CLOSED, OCA_HANDLES_SPENT or OCA_SPAN_FULL in `result`: that command was not sent.
 * OCA_ASKED_UNANSWERED if no answer came in time: the command stays in flight under the handle in `result`.
 * OCA_ASKED_REFUSED if the answer's status is not OK, with that status. `answer` is written for OCA_ASKED_DONE and
 * OCA_ASKED_REFUSED alone. */
struct oca_outcome oca_panel_read(struct oca_panel *panel, uint32_t ono, uint32_t method, struct oca_answer *answer);

/* Waits for the answer to the command that oca_panel_begin_set began under the handle `handle`, for at most the panel's
 * `wait_ms` milliseconds, and takes it. Returns OCA_ASKED_DONE if the device set the object, and OCA_ASKED_REFUSED with
 * the status if it refused: then the command is removed. OCA_ASKED_NO_HANDLE if no command has the handle, or its
 * answer was taken before. OCA_ASKED_LOST or OCA_ASKED_LATE if the panel's link is lost or late and no answer is there:
 * the command may have been carried out. OCA_ASKED_NOT_SENT with OCA_CLOSED in `result` if the panel is closed.
 * OCA_ASKED_UNANSWERED if no answer came in time: the command stays in flight and can be waited for again. */
struct oca_outcome oca_panel_finish_set(struct oca_panel *panel, uint32_t handle);

/* Waits for the answer to the command that oca_panel_begin_get began under the handle `handle`, for at most the panel's
 * `wait_ms` milliseconds, takes it, and writes the value with its limits to `reading`. `class_number` is the number of
 * the class that was given there. Returns OCA_ASKED_DONE, and then alone `reading` is written. OCA_ASKED_UNREADABLE if
 * the answer's parameters are not those of the class's get method, and OCA_ASKED_REFUSED with the status if the device
 * refused: then the command is removed. OCA_ASKED_NO_HANDLE if no command has the handle, or its answer was taken
 * before. OCA_ASKED_LOST or OCA_ASKED_LATE if the panel's link is lost or late and no answer is there.
 * OCA_ASKED_NOT_SENT with OCA_CLOSED in `result` if the panel is closed. OCA_ASKED_UNANSWERED if no answer came in
 * time: the command stays in flight and can be waited for again. */
struct oca_outcome oca_panel_finish_get(struct oca_panel *panel, uint32_t handle, uint32_t class_number, struct oca_reading *reading);

/* Sets an object to `value`, by the set method of the value's class (AES70-2), and waits for the answer. `ono` is the
 * number of the object. The call waits for the answer for at most the panel's `wait_ms` milliseconds. Returns
 * OCA_ASKED_DONE if the device set it. OCA_ASKED_NO_VALUE if the struct holds no value: then nothing is sent. Otherwise
 * the outcome is one of these (enum oca_asked). OCA_ASKED_LOST or OCA_ASKED_LATE if the panel's link is lost or late: a
 * command that was sent may have been carried out. OCA_ASKED_NOT_SENT with OCA_CLOSED, OCA_HANDLES_SPENT or
 * OCA_SPAN_FULL in `result`: that command was not sent. OCA_ASKED_UNANSWERED if no answer came in time: the command
 * stays in flight under the handle in `result`. OCA_ASKED_REFUSED if the answer's status is not OK, with that status.
 */
struct oca_outcome oca_panel_set(struct oca_panel *panel, uint32_t ono, struct oca_value value);

/* Reads how the object with the number `ono`, of the class `class_number` (enum oca_class), is set, by the get method
 * of the class (AES70-2), and waits for the answer. A switch and an integer have their least and greatest value too.
 * The object is not asked for its class. The call waits for the answer for at most the panel's `wait_ms` milliseconds.
 * Returns OCA_ASKED_DONE, and then alone `reading` is written. OCA_ASKED_NO_VALUE if no class has the number, or it is
 * that of a block: then nothing is sent. Otherwise the outcome is one of these (enum oca_asked). OCA_ASKED_LOST or
 * OCA_ASKED_LATE if the panel's link is lost or late: a command that was sent may have been carried out.
 * OCA_ASKED_NOT_SENT with OCA_CLOSED, OCA_HANDLES_SPENT or OCA_SPAN_FULL in `result`: that command was not sent.
 * OCA_ASKED_UNANSWERED if no answer came in time: the command stays in flight under the handle in `result`.
 * OCA_ASKED_REFUSED if the answer's status is not OK, with that status. OCA_ASKED_UNREADABLE if the answer's parameters
 * are not those of the method. */
struct oca_outcome oca_panel_get_of(struct oca_panel *panel, uint32_t ono, uint32_t class_number, struct oca_reading *reading);

/* Asks for the class of the object with the number `ono`, by GetClassIdentification of OcaRoot (AES70-2). The call
 * waits for the answer for at most the panel's `wait_ms` milliseconds. Returns OCA_ASKED_DONE, and then alone `id` is
 * written. The class number in it is 0 for a class that is not of this profile. Otherwise the outcome is one of these
 * (enum oca_asked). OCA_ASKED_LOST or OCA_ASKED_LATE if the panel's link is lost or late: a command that was sent may
 * have been carried out. OCA_ASKED_NOT_SENT with OCA_CLOSED, OCA_HANDLES_SPENT or OCA_SPAN_FULL in `result`: that
 * command was not sent. OCA_ASKED_UNANSWERED if no answer came in time: the command stays in flight under the handle in
 * `result`. OCA_ASKED_REFUSED if the answer's status is not OK, with that status. OCA_ASKED_UNREADABLE if the answer's
 * parameters are not those of the method. */
struct oca_outcome oca_panel_class(struct oca_panel *panel, uint32_t ono, struct oca_class_id *id);

/* Reads how the object with the number `ono` is set: asks for its class (AES70-2, GetClassIdentification), and then for
 * the value by the get method of the class, with the least and the greatest value of a switch and an integer. The call
 * waits for each of the two answers for at most the panel's `wait_ms` milliseconds. Returns OCA_ASKED_DONE, and then
 * alone `reading` is written. OCA_ASKED_NO_VALUE if the object is a block, or its class is not of this profile: then
 * the value is not asked. Otherwise the outcome is one of these (enum oca_asked). OCA_ASKED_LOST or OCA_ASKED_LATE if
 * the panel's link is lost or late: a command that was sent may have been carried out. OCA_ASKED_NOT_SENT with
 * OCA_CLOSED, OCA_HANDLES_SPENT or OCA_SPAN_FULL in `result`: that command was not sent. OCA_ASKED_UNANSWERED if no
 * answer came in time: the command stays in flight under the handle in `result`. OCA_ASKED_REFUSED if the answer's
 * status is not OK, with that status. OCA_ASKED_UNREADABLE if the answer's parameters are not those of the method. */
struct oca_outcome oca_panel_get(struct oca_panel *panel, uint32_t ono, struct oca_reading *reading);

/* Locks the object with the number `ono`, by LockTotal of OcaRoot (AES70-2), and waits for the answer: other
 * controllers can then neither read nor set it. The call waits for the answer for at most the panel's `wait_ms`
 * milliseconds. Returns OCA_ASKED_DONE if the object is locked. Otherwise the outcome is one of these (enum oca_asked).
 * OCA_ASKED_LOST or OCA_ASKED_LATE if the panel's link is lost or late: a command that was sent may have been carried
 * out. OCA_ASKED_NOT_SENT with OCA_CLOSED, OCA_HANDLES_SPENT or OCA_SPAN_FULL in `result`: that command was not sent.
 * OCA_ASKED_UNANSWERED if no answer came in time: the command stays in flight under the handle in `result`.
 * OCA_ASKED_REFUSED if the answer's status is not OK, with that status. The status is OCA_STATUS_LOCKED if another
 * controller has the lock. */
struct oca_outcome oca_panel_lock(struct oca_panel *panel, uint32_t ono);

/* Releases this panel's lock of the object with the number `ono`, by Unlock of OcaRoot (AES70-2). The call waits for
 * the answer for at most the panel's `wait_ms` milliseconds. Returns OCA_ASKED_DONE if the lock is released. Otherwise
 * the outcome is one of these (enum oca_asked). OCA_ASKED_LOST or OCA_ASKED_LATE if the panel's link is lost or late: a
 * command that was sent may have been carried out. OCA_ASKED_NOT_SENT with OCA_CLOSED, OCA_HANDLES_SPENT or
 * OCA_SPAN_FULL in `result`: that command was not sent. OCA_ASKED_UNANSWERED if no answer came in time: the command
 * stays in flight under the handle in `result`. OCA_ASKED_REFUSED if the answer's status is not OK, with that status.
 * The status is OCA_STATUS_LOCKED if another controller has the lock, and OCA_STATUS_INVALID_REQUEST if the object is
 * not locked. */
struct oca_outcome oca_panel_unlock(struct oca_panel *panel, uint32_t ono);

/* Asks for the role of the object with the number `ono`, by GetRole of OcaRoot (AES70-2). The call waits for the answer
 * for at most the panel's `wait_ms` milliseconds. Returns OCA_ASKED_DONE, and then alone `role` is written: 0 to 64
 * bytes of UTF-8. Otherwise the outcome is one of these (enum oca_asked). OCA_ASKED_LOST or OCA_ASKED_LATE if the
 * panel's link is lost or late: a command that was sent may have been carried out. OCA_ASKED_NOT_SENT with OCA_CLOSED,
 * OCA_HANDLES_SPENT or OCA_SPAN_FULL in `result`: that command was not sent. OCA_ASKED_UNANSWERED if no answer came in
 * time: the command stays in flight under the handle in `result`. OCA_ASKED_REFUSED if the answer's status is not OK,
 * with that status. OCA_ASKED_UNREADABLE if the answer's parameters are not those of the method. */
struct oca_outcome oca_panel_role(struct oca_panel *panel, uint32_t ono, struct oca_name *role);

/* Asks for the label of the object with the number `ono`, by GetLabel of OcaWorker (AES70-2). The call waits for the
 * answer for at most the panel's `wait_ms` milliseconds. Returns OCA_ASKED_DONE, and then alone `label` is written: 0
 * to 64 bytes of UTF-8. Otherwise the outcome is one of these (enum oca_asked). OCA_ASKED_LOST or OCA_ASKED_LATE if the
 * panel's link is lost or late: a command that was sent may have been carried out. OCA_ASKED_NOT_SENT with OCA_CLOSED,
 * OCA_HANDLES_SPENT or OCA_SPAN_FULL in `result`: that command was not sent. OCA_ASKED_UNANSWERED if no answer came in
 * time: the command stays in flight under the handle in `result`. OCA_ASKED_REFUSED if the answer's status is not OK,
 * with that status. OCA_ASKED_UNREADABLE if the answer's parameters are not those of the method. */
struct oca_outcome oca_panel_label(struct oca_panel *panel, uint32_t ono, struct oca_name *label);

/* Gives the object with the number `ono` the label `label`, of 0 to 64 bytes, by SetLabel of OcaWorker (AES70-2). The
 * call waits for the answer for at most the panel's `wait_ms` milliseconds. Returns OCA_ASKED_DONE if the object has
 * the label. OCA_ASKED_NO_VALUE if the label has more than 64 bytes or is not UTF-8: then nothing is sent. Otherwise
 * the outcome is one of these (enum oca_asked). OCA_ASKED_LOST or OCA_ASKED_LATE if the panel's link is lost or late: a
 * command that was sent may have been carried out. OCA_ASKED_NOT_SENT with OCA_CLOSED, OCA_HANDLES_SPENT, OCA_SPAN_FULL
 * or OCA_TOO_LONG in `result`: that command was not sent; it is too long over a small link, if the label has more than
 * 62 bytes. OCA_ASKED_UNANSWERED if no answer came in time: the command stays in flight under the handle in `result`.
 * OCA_ASKED_REFUSED if the answer's status is not OK, with that status.
 */
struct oca_outcome oca_panel_set_label(struct oca_panel *panel, uint32_t ono, const struct oca_name *label);

/* Asks for the name of a position of the switch with the number `ono`, by GetPositionName of OcaSwitch (AES70-2), and
 * waits for the answer. `position` is counted from 0. The call waits for the answer for at most the panel's `wait_ms`
 * milliseconds. Returns OCA_ASKED_DONE, and then alone `name` is written. Otherwise the outcome is one of these (enum
 * oca_asked). OCA_ASKED_LOST or OCA_ASKED_LATE if the panel's link is lost or late: a command that was sent may have
 * been carried out. OCA_ASKED_NOT_SENT with OCA_CLOSED, OCA_HANDLES_SPENT or OCA_SPAN_FULL in `result`: that command
 * was not sent. OCA_ASKED_UNANSWERED if no answer came in time: the command stays in flight under the handle in
 * `result`. OCA_ASKED_REFUSED if the answer's status is not OK, with that status. The status is
 * OCA_STATUS_PARAMETER_OUT_OF_RANGE if the switch has no such position. OCA_ASKED_UNREADABLE if the answer's parameters
 * are not those of the method. */
struct oca_outcome oca_panel_position_name(struct oca_panel *panel, uint32_t ono, uint16_t position, struct oca_name *name);

/* Asks for the names of the positions of the switch with the number `ono`, by GetPositionNames of OcaSwitch (AES70-2).
 * The call waits for the answer for at most the panel's `wait_ms` milliseconds. Returns OCA_ASKED_DONE, and then alone
 * `names` is written: at most 16, in the order of the positions. Otherwise the outcome is one of these (enum
 * oca_asked). OCA_ASKED_LOST or OCA_ASKED_LATE if the panel's link is lost or late: a command that was sent may have
 * been carried out. OCA_ASKED_NOT_SENT with OCA_CLOSED, OCA_HANDLES_SPENT or OCA_SPAN_FULL in `result`: that command
 * was not sent. OCA_ASKED_UNANSWERED if no answer came in time: the command stays in flight under the handle in
 * `result`. OCA_ASKED_REFUSED if the answer's status is not OK, with that status. A small device
 * (oca_device_start_small) or a small link has room for 262 bytes of names, two more counted for each: a longer answer
 * is OCA_STATUS_BUFFER_OVERFLOW without parameters. OCA_ASKED_UNREADABLE if the answer's parameters are not those of
 * the method. */
struct oca_outcome oca_panel_position_names(struct oca_panel *panel, uint32_t ono, struct oca_names *names);

/* Asks for the numbers of the members of the block with the number `ono`, by GetMembers of OcaBlock (AES70-2). The call
 * waits for the answer for at most the panel's `wait_ms` milliseconds. Returns OCA_ASKED_DONE, and then alone `members`
 * is written, in the order of the answer. Otherwise the outcome is one of these (enum oca_asked). OCA_ASKED_LOST or
 * OCA_ASKED_LATE if the panel's link is lost or late: a command that was sent may have been carried out.
 * OCA_ASKED_NOT_SENT with OCA_CLOSED, OCA_HANDLES_SPENT or OCA_SPAN_FULL in `result`: that command was not sent.
 * OCA_ASKED_UNANSWERED if no answer came in time: the command stays in flight under the handle in `result`.
 * OCA_ASKED_REFUSED if the answer's status is not OK, with that status. The status is OCA_STATUS_BUFFER_OVERFLOW if
 * there are more than a response has room for, some 90. A small device (oca_device_start_small) or a small link has
 * room for 14 to 18: a longer answer is OCA_STATUS_BUFFER_OVERFLOW without parameters. OCA_ASKED_UNREADABLE if the
 * answer's parameters are not those of the method. */
struct oca_outcome oca_panel_members(struct oca_panel *panel, uint32_t ono, struct oca_members *members);

/* What a walk finds of an object: its number, and the number of the block that lists it (0 for the root). `described`
 * is the outcome of the questions for its class and its role, which are in `id` and `role` if it is OCA_ASKED_DONE. For
 * a block, `listed` is the outcome of the question for its members. If the class or the role is not known, `listed` is
 * as `described`. */
struct oca_visit { uint32_t ono, container; struct oca_outcome described; struct oca_class_id id; struct oca_name role; struct oca_outcome listed; };

/* The memory of a walk: first the numbers of the objects that were visited, and at the end those of the objects that wait. */
struct oca_place { uint32_t ono, container; };
struct oca_walk { uint32_t visited, waiting; struct oca_place places[4096]; };

/* What a walk calls for each object, with the `context` that the caller gave: the walk goes on if it returns true. It may ask the panel
 * too. */
typedef bool (*oca_visitor)(void *context, const struct oca_visit *visit);

/* Visits the objects of the device from the root on, after each block its members in their order: each object once, at
 * most 4,096. Each object is asked for its class and its role, and a block for its members (AES70-2); nothing is set.
 * For each object `visit` is called with `context`; the walk goes on if it returns true. `walk` is memory of the
 * caller's; the call writes over it. One command is in flight at a time. Each answer is waited for until it is there or
 * the link is lost or late, for at most 20,000 ms, whatever the panel's `wait_ms`. Returns OCA_ASKED_DONE if all were
 * visited, or the visitor ended the walk. An object that refuses a question is visited too, and the visit has the
 * reason. A small device (oca_device_start_small) or a small link has room for a block of 14 to 18 members: a longer
 * answer is OCA_STATUS_BUFFER_OVERFLOW without parameters, in `listed` of that block, and its members are not visited.
 * OCA_ASKED_LOST or OCA_ASKED_LATE if the link is lost or late. OCA_ASKED_NOT_SENT if the panel is closed or has no
 * place for a command (`result` says why). OCA_ASKED_UNANSWERED if no answer came in that time, for example if the
 * clock stops. After these the walk is over, and the last object is not visited. */
struct oca_outcome oca_panel_walk(struct oca_panel *panel, struct oca_walk *walk, oca_visitor visit, void *context);

/* ---- over a socket ---- */

#ifndef OCA_NO_POSIX

/* The result of a call of a socket. If it is OCA_SOCKET_SYSTEM, a call of the system failed: the socket has its name and its errno. */
enum oca_socket_result {
    OCA_SOCKET_DONE = 0,
    OCA_SOCKET_NOTHING = 1, /* no datagram is there */
    OCA_SOCKET_CLOSED = 2,  /* the socket is closed */
    OCA_SOCKET_OPEN = 3,    /* it is open */
    OCA_SOCKET_NULL = 4,    /* a pointer is null */
    OCA_SOCKET_SYSTEM = 5   /* a call of the system failed */
};

/* Returns a result of a socket in words, for a log. `result` is a number of enum oca_socket_result; for any other
 * number the words are "a result of a later version". The string is constant: it is not freed. */
static inline const char *oca_socket_text(uint32_t result) {
    switch (result) {
    case OCA_SOCKET_DONE: return "done";
    case OCA_SOCKET_NOTHING: return "no datagram is there";
    case OCA_SOCKET_CLOSED: return "the socket is closed";
    case OCA_SOCKET_OPEN: return "the socket is open";
    case OCA_SOCKET_NULL: return "a pointer is null";
    case OCA_SOCKET_SYSTEM: return "a call of the system failed";
    default: return "a result of a later version";
    }
}

/* A UDP socket of IPv4, of POSIX systems: zeroed, it is closed; struct oca_socket own = OCA_SOCKET_INIT; It has its own address and port,
 * and a panel's socket has those of the device too. If its last call answered OCA_SOCKET_SYSTEM, `call` is the name of the call of the
 * system that failed, such as "bind", and `error` its errno; otherwise they are a null pointer and 0. The file may be polled; the other
 * fields may only be read. One call at a time. The struct may be moved, but never copied and both copies used; not while a panel has an end
 * of it. */
struct oca_socket { bool is_open; int file, error; const char *call; uint32_t ip, device_ip; uint16_t port, device_port; };
#define OCA_SOCKET_INIT {false, 0, 0, NULL, 0, 0, 0, 0}

/* Returns the present moment, in milliseconds of a clock that does not go back. On Linux the clock counts the time for
 * which the machine slept. If the system has no such clock, it is 0. */
uint64_t oca_socket_now(void);

/* Opens a device's UDP socket at the address `ip` of this machine (an IPv4 address as a number, the first byte highest)
 * and the port `port`. At port 0 the system chooses a port: the struct has it then. At the address 0 the socket
 * receives at each address, and a machine with several addresses may answer from another of them. Returns
 * OCA_SOCKET_DONE. OCA_SOCKET_NULL for a null pointer. OCA_SOCKET_OPEN if the socket is open: it stays as it is.
 * OCA_SOCKET_SYSTEM if a call of the system failed, for example if the port is in use: the socket is then closed, and
 * has the call's name and errno. */
enum oca_socket_result oca_socket_open(struct oca_socket *own, uint32_t ip, uint16_t port) OCA_LOOKED_AT;

/* Opens a panel's UDP socket, at the one address from which the system reaches the device at `device_ip` and
 * `device_port`, and at the port `port` (0: the system chooses one, and the struct has it). `device_ip` is an IPv4
 * address as a number, the first byte highest. Nothing is sent. Each transmission of a command leaves from there, or is
 * not sent. Returns OCA_SOCKET_DONE. OCA_SOCKET_NULL for a null pointer. OCA_SOCKET_OPEN if the socket is open: it
 * stays as it is. OCA_SOCKET_SYSTEM if a call of the system failed, for example if there is no route or the port is in
 * use: the socket is then closed, and has the call's name and errno. */
enum oca_socket_result oca_socket_open_towards(struct oca_socket *own, uint32_t device_ip, uint16_t device_port, uint16_t port) OCA_LOOKED_AT;

/* Closes a socket. Datagrams that came and were not received are lost. A closed socket stays closed, and for a null
 * pointer nothing is done. */
void oca_socket_close(struct oca_socket *own);

/* Waits for a datagram until the moment `until`, in milliseconds of oca_socket_now, and for at most a minute. A moment
 * that is past makes it look without waiting. The datagram is not received. Returns OCA_SOCKET_DONE if one is there.
 * OCA_SOCKET_NOTHING if none came, also after a signal. OCA_SOCKET_NULL for a null pointer, OCA_SOCKET_CLOSED if the
 * socket is closed. OCA_SOCKET_SYSTEM if a call of the system failed: the socket has its name and errno. */
enum oca_socket_result oca_socket_wait(struct oca_socket *own, uint64_t until);

/* Receives a datagram that has come, without waiting: writes its bytes to `out`, their number to `len`, and its sender
 * to `ip` (an IPv4 address as a number, the first byte highest) and `port`. A datagram of more than `out_len` bytes is
 * cut; with room for 1,473 bytes a datagram of more than 1,472 is noticed. Returns OCA_SOCKET_DONE. Otherwise `len`,
 * `ip` and `port` are not written. OCA_SOCKET_NULL if a pointer is null. OCA_SOCKET_CLOSED if the socket is closed.
 * OCA_SOCKET_NOTHING if no datagram is there, or a signal came. OCA_SOCKET_SYSTEM if a call of the system failed: the
 * socket has its name and errno. */
enum oca_socket_result oca_socket_receive(struct oca_socket *own, uint8_t *out, size_t out_len, size_t *len, uint32_t *ip, uint16_t *port) OCA_LOOKED_AT;

/* Drops the datagrams that wait in the socket, as if the network had lost them: until none waits, at most
 * OCA_DROPPED_AT_MOST. Writes to `count` how many. oca_serve does this by itself. A device with a loop of its own calls it
 * after a standstill: if it was not asked for more than 1,000 ms since its last receive returned, or a receive returned
 * more than 1,000 ms after the moment until which it was to wait; then it also drops what that receive brought. Let such
 * a receive wait for at most 500 ms, and give the device a clock that counts 1,000 ms of a standstill of at most a minute.
 * Returns OCA_SOCKET_DONE. OCA_SOCKET_NULL if a pointer is null, OCA_SOCKET_CLOSED if the socket is closed: then nothing
 * is dropped. OCA_SOCKET_SYSTEM if a call of the system failed: the socket has its name and errno. */
enum oca_socket_result oca_socket_drop(struct oca_socket *own, uint32_t *count);

/* Sends the `len` bytes `bytes` as one datagram to the address `ip` (an IPv4 address as a number, the first byte
 * highest) and the port `port`, without waiting. Returns OCA_SOCKET_DONE if the system took it, which does not say that
 * it arrives. OCA_SOCKET_NULL if a pointer is null. OCA_SOCKET_CLOSED if the socket is closed. OCA_SOCKET_SYSTEM if the
 * system has no room for it or refuses it: the socket has the call's name and errno. After these it is not sent. */
enum oca_socket_result oca_socket_send(struct oca_socket *own, const uint8_t *bytes, size_t len, uint32_t ip, uint16_t port);

/* Returns the end of a panel over a socket that was opened towards its device, for oca_panel_open. Nothing is checked,
 * sent or received. The socket must stay where it is, and open, until the panel is closed. A send that fails is not
 * reported: the command is sent again. */
struct oca_end oca_socket_end(struct oca_socket *own);

/* What a server did so far: how many datagrams the device handled; how many of their commands were executed, were duplicates (`kept`), were
 * too old, and asked something else under the handle of a retained command (`reused`); how many datagrams were malformed, had no room for a
 * session of their sender, and had more than 1,472 bytes; how many were dropped after a standstill; and how many sends failed. */
struct oca_counts { uint64_t datagrams, executed, kept, old, reused, malformed, no_room, oversize, dropped, failed_sends; };

/* A device that serves over a socket: the size of the struct first, the started device, and its open socket. If there is a store, what a
 * datagram wrote is stored before the datagram is answered. `kept` is an array of the caller's for this, with room for `room` objects. Each
 * of the functions may be a null pointer, and is called with `context`. `lock` and `unlock` are for a program in which other threads use
 * the device: each call for the device is made between the two; waiting and storing are not. `written` is called, between the two, for each
 * object that a datagram wrote to, as soon as the device handled the datagram: with a store before it is stored and answered, and also if
 * storing fails. It gets only the number of the object: oca_device_value, oca_device_setting and oca_device_spec_of read the object. It may
 * call what reads or sets an object, and then sets `is_set` if it set one; it must not call `lock`. `wrote` is called behind `written`, and
 * gets the address and the port of the peer too. `did` is called behind these, also between the two, for each command of the datagram, with
 * what the device did with it and the peer: so a program learns what was changed of an object, and what was refused. `told` is called after each try to store, and not between the two: to use the device it
 * calls `lock` and `unlock` itself. If the program sets something at the local front panel, it sets `is_set` under the lock. Then that is
 * stored at the next turn, and if storing fails, again a second later. `stored` and `received` are the results of the last try to store and
 * of the last receive, and `counts` what was done so far. The server's own are `next`, `is_busy`, `returned` (when the last receive returned)
 * and `behind` (by how much the device's clock is). A struct with the size that it had up to version 1.15 ends before the counts: it is
 * served without them, and only a standstill within a receive is then noticed.
 *
 * A program that has a struct of its own for each object finds it by the object's number, for example in a table: the numbers are the
 * program's choice. */
struct oca_server {
    size_t size;
    struct oca_device *device;
    struct oca_socket *socket;
    struct oca_store *store;
    struct oca_kept *kept;
    size_t room;
    void *context;
    void (*lock)(void *context);
    void (*unlock)(void *context);
    void (*written)(void *context, uint32_t ono);
    void (*told)(void *context, enum oca_store_result stored);
    bool is_set;
    enum oca_store_result stored;
    enum oca_socket_result received;
    uint64_t next;
    bool is_busy;
    struct oca_counts counts;
    void (*wrote)(void *context, uint32_t ono, uint32_t ip, uint16_t port);
    uint64_t returned, behind;
    void (*did)(void *context, const struct oca_effect *effect, uint32_t ip, uint16_t port);
};

/* Returns a server of this device over this socket, which stores nothing and calls no function. Nothing is checked or
 * done: oca_serve serves. Set the other fields of the struct to have a store, locks or calls. */
static inline struct oca_server oca_server_of(struct oca_device *device, struct oca_socket *own) {
    struct oca_server server = {sizeof server, device, own, NULL, NULL, 0, NULL, NULL, NULL, NULL, NULL, false, OCA_STORE_DONE, OCA_SOCKET_DONE, 0, false,
        {0, 0, 0, 0, 0, 0, 0, 0, 0, 0}, NULL, 0, 0, NULL};
    return server;
}

/* Takes one turn of a server: waits for a datagram until the moment `until` at most (milliseconds of oca_socket_now),
 * for at most 500 ms, or until a clock reading changes something; receives one and sends its answers. If it wrote to an
 * object and there is a store, the datagrams that have come already are served with it, at most 64 in all, while there
 * is room for their answers. Then the objects are stored once, and only then are these answers sent. If that can't be
 * stored, they are not sent: the panels' next transmissions cause another try. A datagram of more than 1,472 bytes is
 * dropped. If none came, the device's clock moves on. If `until` is past (0), the call does not wait for a datagram. So
 * a loop can poll the socket's file and its own, until oca_serve_due.
 *
 * A device that stood still: if the device was not asked for more than 1,000 ms since a receive last returned (the
 * program, the machine or a store took so long), or a receive returned more than 1,000 ms after the moment until which
 * it was to wait, all that waits in the socket is dropped before anything is served, at most OCA_DROPPED_AT_MOST
 * datagrams, as if the network had lost it: no command acts late or twice. Each panel that still wants something sends
 * it again within 250 ms. With a store the call then waits for 300 ms, whatever `until` is, so that what is sent again
 * is stored together. The device's clock counts 1,000 ms of a standstill of at most a minute, so it is behind
 * oca_socket_now then, and no panel loses a lock; a longer one counts in full. So call neither oca_device_tick nor
 * oca_device_datagram for a device that is served, and take a turn at least every 500 ms.
 *
 * Returns OCA_DONE. Otherwise the first of these that applies, and then nothing is done. OCA_BAD_SIZE if the struct is
 * of another size. OCA_NOTHING if one of the server's own functions makes the call. OCA_CLOSED if the device is closed,
 * and OCA_NOT_STARTED before its start. OCA_TOO_SMALL if there is a store and `kept` has no room for all objects. If the
 * system fails to wait or to receive, or the socket is closed, the device's clock moves on, the result is OCA_DONE and
 * `received` says it: for OCA_SOCKET_SYSTEM the socket has the call and its errno. The call then waits until `until`, for
 * at most 100 ms. A send that fails is as if the network had lost the answer. */
enum oca_result oca_serve(struct oca_server *server, uint64_t until) OCA_NONNULL;

/* Returns until which moment, in milliseconds of oca_socket_now, a loop that polls the socket's file itself may wait
 * before it calls oca_serve, if no datagram comes: until a clock reading changes something or something is to be stored,
 * and for at most 500 ms. It is not before the present moment, which it is for a null pointer or a struct of another
 * size. The call takes the lock; none of the server's own functions may make it. */
uint64_t oca_serve_due(struct oca_server *server);

/* Stores what was set at the local front panel and is not stored yet, at the end of a program. Call it after the last
 * oca_serve, and before the store and the device are closed. It tries once, also to store what a datagram wrote and
 * could not be stored. If that fails, `is_set` stays true and `stored` says why. It closes nothing, and without a store
 * it does nothing. Call it without the lock, which it takes itself; oca_serve from `told` then returns OCA_NOTHING. For
 * a null pointer, a struct of another size, and from one of the server's own functions nothing is done. */
void oca_serve_end(struct oca_server *server);
#endif

#ifdef __cplusplus
}
static_assert(sizeof(struct oca_device) == 16 && sizeof(struct oca_link) == 16 && sizeof(struct oca_setting) == 16, "64 bits");
static_assert(sizeof(struct oca_value) == 16 && sizeof(struct oca_reading) == 48 && sizeof(struct oca_request) == 14, "values");
static_assert(sizeof(enum oca_result) == sizeof(uint32_t), "a result is a word");
static_assert(sizeof(struct oca_verdict) == 28 && sizeof(struct oca_name) == 65 && sizeof(struct oca_spec) == 1248 && offsetof(struct oca_object, role) == 16, "words");
static_assert(sizeof(struct oca_kept) == 1256, "kept");
static_assert(sizeof(struct oca_names) == 1044 && sizeof(struct oca_members) == 728 && sizeof(struct oca_class_id) == 40, "answers");
#elif defined(__STDC_VERSION__) && __STDC_VERSION__ >= 201112L
_Static_assert(sizeof(struct oca_device) == 16 && sizeof(struct oca_link) == 16 && sizeof(struct oca_setting) == 16, "64 bits");
_Static_assert(sizeof(struct oca_value) == 16 && sizeof(struct oca_reading) == 48 && sizeof(struct oca_request) == 14, "values");
_Static_assert(sizeof(enum oca_result) == sizeof(uint32_t), "a result is a word");
_Static_assert(sizeof(struct oca_verdict) == 28 && sizeof(struct oca_name) == 65 && sizeof(struct oca_spec) == 1248 && offsetof(struct oca_object, role) == 16, "words");
_Static_assert(sizeof(struct oca_kept) == 1256, "kept");
_Static_assert(sizeof(struct oca_names) == 1044 && sizeof(struct oca_members) == 728 && sizeof(struct oca_class_id) == 40, "answers");
#endif
#endif
