/*
 * Frames between network interfaces and a unit, for python/onuctl/live.py: a batch of them is received, forwarded and sent, each in one call.
 * Linux alone has these sockets. What becomes of a frame is said by onu_forward, which is proved; no proof covers this file, and tests/live tests
 * it. Structs and numbers stand in python/onuctl/_wires.py too.
 *
 * A payload stays where the kernel wrote it: addresses and tags are written ahead of it, in the room that is left there.
 */
#define _GNU_SOURCE
#include "onu.h"

#include <errno.h>
#include <linux/if_packet.h>
#include <stdbool.h>
#include <string.h>
#include <sys/socket.h>

#define PUBLIC __attribute__((visibility("default")))

enum {
    ADDRESSES = 12, /* the bytes of both addresses of a frame */
    TAG = 4,        /* the bytes of a tag */
    MOST = 256,     /* frames of a batch */
    AHEAD = 64,     /* bytes that are left ahead of a frame: a tag is put back, and an S-tag and four others leave */
    LONGEST = 65600, /* bytes of a frame, as the kernel gives it without its outermost tag */
    REASONS = 10,   /* reasons to drop a frame, from 1 on */
    FIRST = 10,     /* frames of each reason whose numbers are kept */
    GEM_PORTS = 65536,
    SERVICE_TAG = 0x88a8,
    LAST_VID = 4094,
    CONTROL = CMSG_SPACE(sizeof(struct tpacket_auxdata)),
};

/* Why a frame wasn't sent, beside the numbers of errno. */
enum { NO_INTERFACE = -1, NO_VID = -2 };

/* A frame, and what becomes of it. */
typedef struct live_frame {
    uint8_t *bytes;      /* where it begins: as it came in, and once it is sent as it left */
    uint32_t n;          /* how many bytes it has */
    int32_t error;       /* why it wasn't sent, or 0 */
    onu_verdict verdict;
} live_frame;

/* A batch: how many frames it has, then what the kernel is given to receive and to send them. */
typedef struct live_batch {
    uint32_t count;
    uint32_t too_long;   /* frames of the batch that are passed over, since they are longer than LONGEST */
    uint32_t own;        /* likewise, since this machine sent them */
    uint32_t unsummed;   /* frames of the batch whose checksum a network card was to write */
    uint32_t used;       /* places below it were used since they were prepared */
    bool is_prepared;    /* whether the others were */
    live_frame frames[MOST];
    struct mmsghdr heads[MOST];
    struct iovec parts[MOST];
    struct sockaddr_ll peers[MOST];
    live_frame *leaving[MOST];
    union {
        struct cmsghdr align;
        uint8_t bytes[CONTROL];
    } control[MOST];
    /* A room isn't a multiple of 4,096 bytes, so that the fronts of frames don't share a place in the caches. */
    uint8_t rooms[MOST][AHEAD + LONGEST + 64];
} live_batch;

/* By which interface each GEM port's frames leave, and what left. */
typedef struct live_pon {
    int32_t socket;
    int32_t interfaces[GEM_PORTS]; /* the index of the interface, or 0 where there is none */
    uint8_t is_tagged[GEM_PORTS];  /* whether the GEM port stands as an S-tag in front */
    uint64_t frames;               /* how many frames came in; they are numbered from 1 */
    uint64_t bytes;                /* how many bytes left, without S-tags of is_tagged */
    uint64_t dropped[REASONS];
    uint64_t first[REASONS][FIRST]; /* the numbers of the first frames that were dropped for each reason */
    uint64_t left[GEM_PORTS];
} live_pon;

static void put_16(uint8_t *at, uint32_t number) {
    at[0] = (uint8_t)(number >> 8);
    at[1] = (uint8_t)number;
}

/* Writes a tag ahead of a place, and gives where it begins. */
static uint8_t *put_tag(uint8_t *behind, uint32_t type, uint32_t control) {
    put_16(behind - TAG, type);
    put_16(behind - TAG + 2, control);
    return behind - TAG;
}

/* What the kernel is given to receive the frame of a place. */
static void prepare(live_batch *batch, uint32_t place) {
    batch->parts[place] = (struct iovec){batch->rooms[place] + AHEAD, LONGEST};
    batch->heads[place].msg_hdr = (struct msghdr){
        .msg_name = &batch->peers[place],
        .msg_namelen = sizeof batch->peers[place],
        .msg_iov = &batch->parts[place],
        .msg_iovlen = 1,
        .msg_control = batch->control[place].bytes,
        .msg_controllen = CONTROL,
    };
}

/* Puts a tag back that the kernel took off. */
static void put_back(live_frame *frame, const struct tpacket_auxdata *said) {
    uint32_t type = said->tp_status & TP_STATUS_VLAN_TPID_VALID ? said->tp_vlan_tpid : 0x8100;
    if (frame->n < ADDRESSES)
        return;
    memmove(frame->bytes - TAG, frame->bytes, ADDRESSES);
    put_tag(frame->bytes + ADDRESSES, type, said->tp_vlan_tci);
    frame->bytes -= TAG;
    frame->n += TAG;
}

/* What the kernel says beside a frame. */
static const struct tpacket_auxdata *said_of(struct msghdr *head) {
    for (struct cmsghdr *each = CMSG_FIRSTHDR(head); each != NULL; each = CMSG_NXTHDR(head, each))
        if (each->cmsg_level == SOL_PACKET && each->cmsg_type == PACKET_AUXDATA)
            return (const struct tpacket_auxdata *)CMSG_DATA(each);
    return NULL;
}

/* Takes the frame of a place into the batch, where it arrived and is whole. */
static void take(live_batch *batch, uint32_t place) {
    struct msghdr *head = &batch->heads[place].msg_hdr;
    const struct tpacket_auxdata *said = said_of(head);
    live_frame *frame = &batch->frames[batch->count];
    if (batch->peers[place].sll_pkttype == PACKET_OUTGOING) {
        batch->own++;
        return;
    }
    if (head->msg_flags & MSG_TRUNC) {
        batch->too_long++;
        return;
    }
    *frame = (live_frame){.bytes = batch->rooms[place] + AHEAD, .n = batch->heads[place].msg_len};
    if (said != NULL && said->tp_status & TP_STATUS_VLAN_VALID)
        put_back(frame, said);
    if (said != NULL && said->tp_status & TP_STATUS_CSUMNOTREADY)
        batch->unsummed++;
    batch->count++;
}

/* How many bytes a batch and a PON have, of which the caller makes room; all are zero at first. */
PUBLIC size_t onu_live_batch_size(void) {
    return sizeof(live_batch);
}

PUBLIC size_t onu_live_pon_size(void) {
    return sizeof(live_pon);
}

/* Receives as many frames as are there, at most MOST. Gives how many were taken from the socket, or a number of errno below 0. */
PUBLIC int32_t onu_live_receive(int32_t socket, live_batch *batch) {
    for (uint32_t place = 0; place < (batch->is_prepared ? batch->used : MOST); place++)
        prepare(batch, place);
    batch->is_prepared = true;
    batch->count = batch->too_long = batch->own = batch->unsummed = 0;
    int got = recvmmsg(socket, batch->heads, MOST, MSG_DONTWAIT, NULL);
    batch->used = got < 0 ? 1 : (uint32_t)got;
    if (got < 0)
        return -errno;
    for (uint32_t place = 0; place < batch->used; place++)
        take(batch, place);
    return got;
}

/* Says of each frame of a batch what becomes of it, where it comes in at a port. */
PUBLIC void onu_live_forward(onu *cell, uint16_t port, live_batch *batch) {
    for (uint32_t place = 0; place < batch->count; place++) {
        live_frame *frame = &batch->frames[place];
        onu_forward(cell, port, frame->bytes, frame->n, &frame->verdict);
    }
}

/* Writes addresses and tags ahead of the rest of a frame, as it leaves. */
static void write_front(live_frame *frame, bool is_tagged) {
    const onu_verdict *verdict = &frame->verdict;
    uint8_t addresses[ADDRESSES], *front = frame->bytes + verdict->rest;
    memcpy(addresses, frame->bytes, ADDRESSES);
    for (uint32_t place = verdict->count; place-- > 0;)
        front = put_tag(front, verdict->tags[place] >> 16, verdict->tags[place]);
    if (is_tagged)
        front = put_tag(front, SERVICE_TAG, verdict->gem);
    memcpy(front - ADDRESSES, addresses, ADDRESSES);
    frame->n = (uint32_t)(frame->bytes + frame->n - front) + ADDRESSES;
    frame->bytes = front - ADDRESSES;
}

/* What the kernel is given to send a frame as the next of those that leave. */
static void put_leaving(live_batch *batch, uint32_t place, live_frame *frame, int32_t interface) {
    batch->leaving[place] = frame;
    batch->parts[place] = (struct iovec){frame->bytes, frame->n};
    batch->peers[place] = (struct sockaddr_ll){.sll_family = AF_PACKET, .sll_ifindex = interface};
    batch->heads[place].msg_hdr.msg_namelen = sizeof batch->peers[place];
    batch->heads[place].msg_hdr.msg_controllen = 0;
}

/* Counts a frame that is dropped. */
static void count_dropped(live_pon *pon, uint8_t reason, uint64_t number) {
    uint64_t before = pon->dropped[reason]++;
    if (before < FIRST)
        pon->first[reason][before] = number;
}

/* Lines up the frames of a batch that leave, counts those that don't, and gives how many leave. */
static uint32_t line_up(live_pon *pon, live_batch *batch) {
    uint32_t leaving = 0;
    for (uint32_t place = 0; place < batch->count; place++) {
        live_frame *frame = &batch->frames[place];
        uint16_t gem = frame->verdict.gem;
        pon->frames++;
        if (frame->verdict.reason != 0) {
            count_dropped(pon, frame->verdict.reason, pon->frames);
        } else if (pon->interfaces[gem] == 0) {
            frame->error = NO_INTERFACE;
        } else if (pon->is_tagged[gem] && (gem == 0 || gem > LAST_VID)) {
            frame->error = NO_VID;
        } else {
            write_front(frame, pon->is_tagged[gem]);
            put_leaving(batch, leaving++, frame, pon->interfaces[gem]);
        }
    }
    return leaving;
}

/* Counts the frames that left. */
static void count_left(live_pon *pon, const live_batch *batch, uint32_t leaving) {
    for (uint32_t place = 0; place < leaving; place++) {
        const live_frame *frame = batch->leaving[place];
        uint16_t gem = frame->verdict.gem;
        if (frame->error == 0) {
            pon->left[gem]++;
            pon->bytes += frame->n - (pon->is_tagged[gem] ? TAG : 0);
        }
    }
}

/* Sends the frames of a batch that leave, in their order, and counts all. Gives how many of its frames have an error: they weren't sent. */
PUBLIC uint32_t onu_live_send(live_pon *pon, live_batch *batch) {
    uint32_t leaving = line_up(pon, batch), errors = 0;
    for (uint32_t sent = 0; sent < leaving;) {
        int more = sendmmsg(pon->socket, batch->heads + sent, leaving - sent, 0);
        if (more > 0)
            sent += (uint32_t)more;
        else if (errno != EINTR)
            batch->leaving[sent++]->error = errno;
    }
    count_left(pon, batch, leaving);
    for (uint32_t place = 0; place < batch->count; place++)
        errors += batch->frames[place].error != 0;
    return errors;
}
