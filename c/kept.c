/* What a device keeps over a stop: each object by its number. include/oca.h has its calls. It needs nothing of the system, and no heap. */
#include <oca.h>

enum oca_result oca_device_keep(struct oca_device *device, struct oca_kept *kept, size_t room, size_t *count) {
    size_t objects = 0;
    const enum oca_result found = oca_device_objects(device, &objects);
    if (found != OCA_DONE) return found;
    *count = objects;
    for (size_t i = 0; i < objects && i < room; i++) {
        struct oca_object object = {0, 0, 0, 0, {0}};
        kept[i].spec.size = (uint32_t)sizeof kept[i].spec;
        enum oca_result told = oca_device_object(device, i, &object);
        if (told == OCA_DONE) told = oca_device_spec(device, i, &kept[i].spec);
        if (told != OCA_DONE) return told;
        kept[i].ono = object.ono;
        kept[i].container = object.container;
    }
    return objects > room ? OCA_TOO_SMALL : OCA_DONE;
}

/* What was kept of an object, by its number; a null pointer where nothing was. */
static const struct oca_kept *kept_of(uint32_t ono, const struct oca_kept *kept, size_t count) {
    for (size_t i = 0; i < count; i++)
        if (kept[i].ono == ono) return &kept[i];
    return NULL;
}

/* Brings what was kept of an object into what it is to be, where it can be so. */
static struct oca_spec restored(uint32_t ono, const struct oca_spec *spec, const struct oca_kept *kept, size_t count) {
    struct oca_spec as_kept = *spec;
    const struct oca_kept *its = kept_of(ono, kept, count);
    if (its) (void)oca_spec_restore(&as_kept, &its->spec);
    return as_kept;
}

enum oca_result oca_device_open_kept(struct oca_device *device, uint16_t room, const struct oca_spec *root, const struct oca_kept *kept, size_t count) {
    const struct oca_spec as_kept = restored(100, root, kept, count);
    return oca_device_open_with(device, room, &as_kept);
}

enum oca_result oca_device_add_kept(struct oca_device *device, uint32_t container, uint32_t ono, const struct oca_spec *spec, const struct oca_kept *kept, size_t count) {
    const struct oca_spec as_kept = restored(ono, spec, kept, count);
    return oca_device_add(device, container, ono, &as_kept);
}
