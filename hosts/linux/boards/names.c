#include "names.h"

#include <string.h>

enum { NAME_MOST = 15 };

struct name {
    uint8_t type;
    const char *text;
};

const char *names_request(uint8_t type) {
    static const struct name names[] = {
        {0x01, "get configuration"},
        {0x02, "get status"},
        {0x03, "control command"},
        {0x04, "display message"},
        {0x05, "set diagnostics"},
        {0x06, "get diagnostics"},
        {0x07, "get sensor data"},
        {0x0D, "set identification"},
        {0x0E, "get identification"},
        {0x10, "set network shared data"},
        {0x11, "get network shared data"},
        {0x12, "set manufacturer device data"},
        {0x13, "get manufacturer device data"},
        {0x1D, "direct memory read"},
        {0x1E, "direct memory write"},
        {0x1F, "set manufacturer generic data"},
        {0x20, "get manufacturer generic data"},
        {0x21, "manufacturer generic reply"},
        {0x41, "get user menu"},
        {0x42, "update user menu"},
        {0x43, "set factory shared data"},
        {0x44, "get shared data"},
        {0x5A, "echo"},
        {0x75, "network state"},
        {0x76, "address confirmation"},
        {0x77, "token offer"},
        {0x78, "version announcement"},
        {0x7D, "shared data image"},
        {0x7E, "encapsulation"},
    };
    for (unsigned i = 0; i < sizeof names / sizeof *names; i++)
        if (names[i].type == type) return names[i].text;
    return "reserved request";
}

bool names_fit(const char *name) {
    static const char letters[] = "abcdefghijklmnopqrstuvwxyzABCDEFGHIJKLMNOPQRSTUVWXYZ0123456789-_";
    size_t length = strlen(name);
    return length > 0 && length <= NAME_MOST && strspn(name, letters) == length && strcmp(name, "all") != 0;
}
