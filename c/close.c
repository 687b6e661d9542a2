/* Closing a device or a link, also of a null pointer: include/oca.h has the calls. It needs nothing of the system, and no heap. */
#include <oca.h>

void oca_device_close(struct oca_device *device) {
    if (device) oca_device_shut(device);
}

void oca_link_close(struct oca_link *link) {
    if (link) oca_link_shut(link);
}
