/* Sets port 257 of a unit up, sends it two frames, and prints what becomes of them. */
#include "onu.h"

#include <stdio.h>
#include <string.h>

/* Creates, each with its class and instance: a GEM port, an interworking point to it, a mapper of the port, a table for the port. Then a Set of
 * an entry of the table: a frame without a tag gets one of VLAN 100. The bytes behind these are zero. */
static const struct {
    size_t n;
    uint8_t bytes[40];
} requests[] = {
    {14, {0, 1, 0x44, 0x0a, 0x01, 0x0c, 0x04, 0x01, 0x04, 0x00, 0x80, 0x01, 0x03, 0x00}},
    {13, {0, 2, 0x44, 0x0a, 0x01, 0x0a, 0x05, 0x01, 0x04, 0x01, 0x05, 0x06, 0x01}},
    {29, {0, 3, 0x44, 0x0a, 0x00, 0x82, 0x06, 0x01, 0x01, 0x01, 5, 1, 5, 1, 5, 1, 5, 1, 5, 1, 5, 1, 5, 1, 5, 1, 0x01, 0x00, 0x01}},
    {11, {0, 4, 0x44, 0x0a, 0x00, 0xab, 0x07, 0x01, 0x02, 0x01, 0x01}},
    {26, {0, 5, 0x48, 0x0a, 0x00, 0xab, 0x07, 0x01, 0x04, 0x00, 0xf8, 0, 0, 0, 0xf8, 0, 0, 0, 0x00, 0x0f, 0, 0, 0, 0, 0x03, 0x24}},
};

static const uint8_t untagged[] = {2, 0, 0, 0, 0, 1, 2, 0, 0, 0, 0, 2, 0x08, 0x00, 0x45, 0x00};

static void send_frame(onu *unit, uint16_t port, const uint8_t *frame, size_t n) {
    onu_verdict said;
    if (onu_forward(unit, port, frame, n, &said) != 1) {
        printf("port %u: dropped for reason %u\n", port, said.reason);
        return;
    }
    printf("port %u: leaves by GEM port %u as ", port, said.gem);
    for (size_t i = 0; i < 12; i++)
        printf("%02x", frame[i]);
    for (unsigned i = 0; i < said.count; i++)
        printf(" %08x", (unsigned)said.tags[i]);
    printf(" ");
    for (size_t i = said.rest; i < n; i++)
        printf("%02x", frame[i]);
    printf("\n");
}

int main(void) {
    onu unit = ONU_CELL;
    if (onu_open(&unit) != 0)
        return 1;
    for (size_t i = 0; i < sizeof requests / sizeof requests[0]; i++) {
        uint8_t message[48] = {0}, reply[48];
        memcpy(message, requests[i].bytes, requests[i].n);
        if (onu_message(&unit, message, sizeof message, reply) != 1 || reply[8] != 0)
            return 1;
    }
    send_frame(&unit, 257, untagged, sizeof untagged);
    send_frame(&unit, 258, untagged, sizeof untagged);
    return onu_close(&unit) == 0 ? 0 : 1;
}
