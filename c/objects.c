/* Objects added and set without a description or a value, over the calls that take one. include/oca.h has the calls. It needs nothing of the
 * system, and no heap. */
#include <oca.h>

/* Whether a text of any length is UTF-8: each part of at most 64 bytes is, cut where no byte goes on with a character. */
static bool is_text(const uint8_t *text, size_t left) {
    uint8_t bytes[66];
    while (left > 0) {
        struct oca_name part = {0, {0}};
        size_t size = left < 64 ? left : 64, put = 0;
        while (size < left && size > 60 && (text[size] & 0xc0) == 0x80) size--;
        for (; part.size < size; part.size++) part.text[part.size] = text[part.size];
        if (oca_text_put(&part, bytes, sizeof bytes, &put) != OCA_DONE) return false;
        text += size, left -= size;
    }
    return true;
}

/* Adds an object that is read so, and as a switch has these names. A role above 64 bytes is refused behind all that the tree refuses, as an empty one
 * is, but before it where it is no UTF-8, as the byte 255 is. */
static enum oca_result add(struct oca_device *device, uint32_t container, uint32_t ono, const uint8_t *role, size_t role_len, bool lockable, struct oca_reading reading, const struct oca_name *names, size_t names_len) {
    static const uint8_t no_text[] = {255};
    struct oca_spec spec = OCA_SPEC_INIT;
    if (role_len > 64) {
        role_len = is_text(role, role_len) ? 0 : 1;
        role = no_text;
    }
    for (; spec.role.size < role_len; spec.role.size++) spec.role.text[spec.role.size] = role[spec.role.size];
    for (; spec.positions < names_len && spec.positions < 16; spec.positions++) {
        spec.names[spec.positions] = names[spec.positions];
        spec.enableds[spec.positions] = 1;
    }
    if (names_len > 16) spec.positions = 17;
    spec.lockable = lockable;
    spec.reading = reading;
    return oca_device_add(device, container, ono, &spec);
}

static enum oca_result add_alone(struct oca_device *device, uint32_t container, uint32_t ono, const uint8_t *role, size_t role_len, bool lockable, struct oca_value value) {
    return add(device, container, ono, role, role_len, lockable, oca_alone(value), NULL, 0);
}

static enum oca_result add_within(struct oca_device *device, uint32_t container, uint32_t ono, const uint8_t *role, size_t role_len, bool lockable, struct oca_value setting, struct oca_value least, struct oca_value greatest) {
    return add(device, container, ono, role, role_len, lockable, oca_within(setting, least, greatest), NULL, 0);
}

enum oca_result oca_device_add_block(struct oca_device *device, uint32_t container, uint32_t ono, const uint8_t *role, size_t role_len, bool lockable) {
    return add_alone(device, container, ono, role, role_len, lockable, oca_value_of(OCA_CLASS_BLOCK, 0));
}

enum oca_result oca_device_add_mute(struct oca_device *device, uint32_t container, uint32_t ono, const uint8_t *role, size_t role_len, bool lockable, bool muted) {
    return add_alone(device, container, ono, role, role_len, lockable, oca_mute(muted));
}

enum oca_result oca_device_add_polarity(struct oca_device *device, uint32_t container, uint32_t ono, const uint8_t *role, size_t role_len, bool lockable, bool inverted) {
    return add_alone(device, container, ono, role, role_len, lockable, oca_polarity(inverted));
}

enum oca_result oca_device_add_boolean(struct oca_device *device, uint32_t container, uint32_t ono, const uint8_t *role, size_t role_len, bool lockable, bool setting) {
    return add_alone(device, container, ono, role, role_len, lockable, oca_boolean(setting));
}

enum oca_result oca_device_add_int8(struct oca_device *device, uint32_t container, uint32_t ono, const uint8_t *role, size_t role_len, bool lockable, int8_t setting, int8_t least, int8_t greatest) {
    return add_within(device, container, ono, role, role_len, lockable, oca_int8(setting), oca_int8(least), oca_int8(greatest));
}

enum oca_result oca_device_add_int16(struct oca_device *device, uint32_t container, uint32_t ono, const uint8_t *role, size_t role_len, bool lockable, int16_t setting, int16_t least, int16_t greatest) {
    return add_within(device, container, ono, role, role_len, lockable, oca_int16(setting), oca_int16(least), oca_int16(greatest));
}

enum oca_result oca_device_add_int32(struct oca_device *device, uint32_t container, uint32_t ono, const uint8_t *role, size_t role_len, bool lockable, int32_t setting, int32_t least, int32_t greatest) {
    return add_within(device, container, ono, role, role_len, lockable, oca_int32(setting), oca_int32(least), oca_int32(greatest));
}

enum oca_result oca_device_add_int64(struct oca_device *device, uint32_t container, uint32_t ono, const uint8_t *role, size_t role_len, bool lockable, int64_t setting, int64_t least, int64_t greatest) {
    return add_within(device, container, ono, role, role_len, lockable, oca_int64(setting), oca_int64(least), oca_int64(greatest));
}

enum oca_result oca_device_add_uint8(struct oca_device *device, uint32_t container, uint32_t ono, const uint8_t *role, size_t role_len, bool lockable, uint8_t setting, uint8_t least, uint8_t greatest) {
    return add_within(device, container, ono, role, role_len, lockable, oca_uint8(setting), oca_uint8(least), oca_uint8(greatest));
}

enum oca_result oca_device_add_uint16(struct oca_device *device, uint32_t container, uint32_t ono, const uint8_t *role, size_t role_len, bool lockable, uint16_t setting, uint16_t least, uint16_t greatest) {
    return add_within(device, container, ono, role, role_len, lockable, oca_uint16(setting), oca_uint16(least), oca_uint16(greatest));
}

enum oca_result oca_device_add_uint32(struct oca_device *device, uint32_t container, uint32_t ono, const uint8_t *role, size_t role_len, bool lockable, uint32_t setting, uint32_t least, uint32_t greatest) {
    return add_within(device, container, ono, role, role_len, lockable, oca_uint32(setting), oca_uint32(least), oca_uint32(greatest));
}

enum oca_result oca_device_add_uint64(struct oca_device *device, uint32_t container, uint32_t ono, const uint8_t *role, size_t role_len, bool lockable, uint64_t setting, uint64_t least, uint64_t greatest) {
    return add_within(device, container, ono, role, role_len, lockable, oca_uint64(setting), oca_uint64(least), oca_uint64(greatest));
}

enum oca_result oca_device_add_switch(struct oca_device *device, uint32_t container, uint32_t ono, const uint8_t *role, size_t role_len, bool lockable, const struct oca_name *names, size_t names_len, uint16_t position) {
    return add(device, container, ono, role, role_len, lockable, oca_alone(oca_position(position)), names, names_len);
}

/* Sets an object whose setting is of this kind (struct oca_setting) to a number, by the value of each of these classes, of which one is its own; any
 * other object is refused as by a value of the first class. A number of 2^63 and above is one below 0 where that is said: it is then none of an
 * unsigned class, and else none of a signed one. */
static enum oca_result set(struct oca_device *device, uint32_t ono, uint32_t kind, uint32_t first, uint32_t last, uint64_t bits, bool is_below_0) {
    struct oca_setting setting = {0, 0, 0};
    struct oca_value value = oca_value_of(first, 1);
    if (oca_device_setting(device, ono, &setting) != OCA_DONE || setting.kind != kind) return oca_device_set(device, ono, &value);
    for (value.bits = bits; value.class_number <= last; value.class_number++) {
        const bool is_none = bits >> 63 && is_below_0 != (value.class_number < OCA_CLASS_UINT8);
        const enum oca_result result = is_none ? OCA_NO_VALUE : oca_device_set(device, ono, &value);
        if (result != OCA_NO_VALUE && result != OCA_OTHER_KIND) return result;
    }
    return OCA_OUT_OF_RANGE;
}

enum oca_result oca_device_set_state(struct oca_device *device, uint32_t ono, uint8_t state) {
    return set(device, ono, 1, OCA_CLASS_MUTE, OCA_CLASS_POLARITY, state, false);
}

enum oca_result oca_device_set_position(struct oca_device *device, uint32_t ono, uint16_t position) {
    const struct oca_value value = oca_position(position);
    return oca_device_set(device, ono, &value);
}

enum oca_result oca_device_set_truth(struct oca_device *device, uint32_t ono, bool truth) {
    const struct oca_value value = oca_boolean(truth);
    return oca_device_set(device, ono, &value);
}

enum oca_result oca_device_set_signed(struct oca_device *device, uint32_t ono, int64_t number) {
    return set(device, ono, 4, OCA_CLASS_INT8, OCA_CLASS_UINT64, (uint64_t)number, number < 0);
}

enum oca_result oca_device_set_unsigned(struct oca_device *device, uint32_t ono, uint64_t number) {
    return set(device, ono, 4, OCA_CLASS_INT8, OCA_CLASS_UINT64, number, false);
}
