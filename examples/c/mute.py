#!/usr/bin/env python3
"""Mutes a channel of the device at this machine, by liboca.so. Usage: mute.py LIBRARY PORT [ONO]"""
import ctypes as c, socket, sys, time

oca = c.CDLL(sys.argv[1])
link = (c.c_uint64 * 2)()                                       # a struct oca_link, closed
value, request = (c.c_uint32 * 4)(2, 0, 1), (c.c_uint8 * 14)()  # the struct oca_value of OCA_CLASS_MUTE and OCA_MUTED
handle, due, count, status = (c.c_uint32() for _ in range(4))
size, packet, to = c.c_size_t(), (c.c_uint8 * 1472)(), (0x7F000001, int(sys.argv[2]))
now = lambda: c.c_uint64(int(time.monotonic() * 1000))
end = socket.socket(socket.AF_INET, socket.SOCK_DGRAM)
end.settimeout(0.05)
oca.oca_set_request(value, request)
level, index, given = request[0] | request[1] << 8, request[2] | request[3] << 8, bytes(request[6:6 + request[5]])
assert oca.oca_link_open(link, *to, 1, now(), 16) == 0
assert oca.oca_link_submit(link, int((*sys.argv, 4097)[3]), level, index, request[4], given, c.c_size_t(len(given)), now(), c.byref(handle)) == 0
while oca.oca_link_take(link, handle, c.byref(status), c.byref(count), packet, c.c_size_t(1472), c.byref(size)) != 0 and due.value != 3:
    while oca.oca_link_due(link, now(), packet, c.c_size_t(1472), c.byref(size), c.byref(due), c.byref(count)) == 0 and due.value in (1, 2):
        end.sendto(bytes(packet[:size.value]), ("127.0.0.1", to[1]))
    try:
        got = end.recv(2000)
        oca.oca_link_datagram(link, *to, got, c.c_size_t(len(got)), now(), c.byref(count), c.byref(count))
    except TimeoutError:
        pass
print("lost" if due.value == 3 else f"status {status.value}")
