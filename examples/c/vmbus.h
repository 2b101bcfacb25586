/* Calls of the static libraries vmbus_c (control messages, packets, services, signals), vmbus_control_c (versions, offers, page lists), vmbus_net_c (NVSP and Remote NDIS), vmbus_stor_c
   (storage packets) and, for the ends of a channel, ring_call_plan_c, page_call_plan_c (its data pages) and vmbus_ring_c. Nothing takes memory, and nothing is kept between calls. A null pointer with length 0 is an empty slice. What each call gives is proved
   there; here is what C has to know of it. Each call is total: whatever the numbers that it is given, it answers as is said here, and touches no memory but that. Every pointer is to
   private memory, never into pages that a peer shares: a call may read a byte twice, and rests on reading the same. Slices that are written overlap no other argument.

   Every call whose name ends in _write, and each that writes a packet of bytes or words, has these answers. What is not VMBUS_WRITTEN writes nothing but, where it is said, a length. */
#ifndef VMBUS_H
#define VMBUS_H
#include <stdbool.h>
#include <stddef.h>
#include <stdint.h>
#include <string.h>

enum vmbus_written {
    VMBUS_WRITTEN = 0,
    VMBUS_NO_FORM = 1, /* there is no such message or packet */
    VMBUS_NO_ROOM = 2, /* the buffer is too small */
};

/* What a refusal tells, by its number; what it doesn't tell is 0. */
struct vmbus_fault {
    uint32_t have, need, field;
    uint64_t value;
};

/* The numbers of a control message (Linux include/linux/hyperv.h). Those that its type doesn't have are 0. */
struct vmbus_message {
    uint32_t kind;
    uint32_t padding;
    uint32_t relid;
    uint32_t openid;
    uint32_t gpadl;
    uint32_t status;
    uint32_t target_vp;
    uint32_t downstream;
    uint32_t version;
    uint32_t target_vcpu;
    uint32_t supported;
    uint32_t state;
    uint32_t padding2;
    uint32_t conn;
    uint32_t msgnumber;
    uint32_t range_buflen;
    uint32_t rangecount;
    uint32_t byte_count;
    uint32_t byte_offset;
    uint32_t frames;
    uint32_t chn_flags;
    uint32_t mmio;
    uint32_t sub;
    uint32_t reserved3;
    uint32_t monitorid;
    uint32_t monitor;
    uint32_t interrupt;
    uint32_t connection;
    uint64_t page;
    uint64_t monitor1;
    uint64_t monitor2;
    uint64_t reserved1;
    uint64_t reserved2;
};

/* Where ids, user data and page frame numbers stand in the bytes of a message. */
#define VMBUS_OFFER_IF_TYPE 8      /* 16 bytes */
#define VMBUS_OFFER_IF_INSTANCE 24 /* 16 bytes */
#define VMBUS_OFFER_USER 60        /* 120 bytes */
#define VMBUS_OPEN_USER 28         /* 120 bytes */
#define VMBUS_CONNECT_GUEST_ENDPOINT 8 /* 16 bytes: the ids of a TL_CONNECT_REQUEST */
#define VMBUS_CONNECT_HOST_SERVICE 24  /* 16 bytes */
#define VMBUS_GPADL_HEADER_FRAMES 28
#define VMBUS_GPADL_BODY_FRAMES 16

/* The control message that the bytes are, all of them: 0, and the message is written. Otherwise nothing but the fault is written, and the answer is
   1 short: have and need bytes;
   2 unknown: value is the type;
   3 long: have bytes;
   4 a field of a page list's header: field 1 is range_buflen, 2 rangecount, of this value. */
uint32_t vmbus_message_read(const uint8_t *bytes, size_t len, struct vmbus_message *message, struct vmbus_fault *fault);

/* The control message of these numbers at the front of out, round the ids and the user data, which stand in out already, at the places above; len is then how many bytes it has. VMBUS_NO_ROOM
   where out has less than the VMBUS_MESSAGE_MOST bytes that a message may have, and else VMBUS_NO_FORM where no message has these numbers: those that its type doesn't have are 0, and the
   others fit their fields. Of types 8 and 9, a page list's messages, there is none here: vmbus_gpadl_write. */
#define VMBUS_MESSAGE_MOST 240
uint32_t vmbus_message_write(const struct vmbus_message *message, uint8_t *out, size_t room, size_t *len);

/* ---- Versions, offers and page lists (crates/vmbus_control_c). ---- */

/* A version of the protocol (Linux include/linux/hyperv.h, VERSION_WIN10 and the others). There are 2.4, 3.0, 4.0, 4.1, 5.0, 5.1, 5.2 and 5.3. */
#define VMBUS_VERSION(major, minor) ((uint32_t)(major) << 16 | (minor))

/* The version that a guest tries after its host refused this one: the next lower one; 0 where none is left, after 2.4, or `refused` is no version (drivers/hv/connection.c, vmbus_connect). */
uint32_t vmbus_version_next(uint32_t refused);

/* Whether a host whose highest version is `highest` accepts one that a guest asks for. */
bool vmbus_version_accepts(uint32_t highest, uint32_t asked);

/* The version that a guest and a host use whose highest ones these are: the greatest that is above neither. 0 where one of them is no version. */
uint32_t vmbus_version_agree(uint32_t guest, uint32_t host);

/* Whether a version has MODIFYCHANNEL (from 4.1 on), and whether a host answers it there (from 5.3 on). */
bool vmbus_version_has_modify(uint32_t version);
bool vmbus_version_answers_modify(uint32_t version);

enum vmbus_kind {
    VMBUS_HEARTBEAT = 1,
    VMBUS_SHUTDOWN = 2,
    VMBUS_SCSI = 3,
    VMBUS_NETWORK = 4,
    VMBUS_SOCKET = 5, /* a service that listens at a port (net/vmw_vsock/hyperv_transport.c) */
    VMBUS_KEY_VALUE = 6, /* key-value exchange (drivers/hv/hv_kvp.c) */
};

/* What an offer says of its channel. */
struct vmbus_offer {
    uint32_t relid; /* the channel's number */
    uint32_t kind;  /* what is at its other end: enum vmbus_kind */
    uint32_t port;  /* of a socket's service; of other kinds 0 */
    uint32_t sub;   /* which of the device's sub-channels it is, from 1 on; 0 for its primary channel */
};

/* The offer that the bytes are, all of them: 0. Otherwise nothing is written, and the answer is
   1 no OFFERCHANNEL message (vmbus_message_read says why, or its type);
   2 a class id that none of these kinds has. */
uint32_t vmbus_offer_read(const uint8_t *bytes, size_t len, struct vmbus_offer *offer);

/* The OFFERCHANNEL message of these numbers at the front of out: its kind's class id, the relid and zeros as its instance id, the relid as its connection, monitorid 255, and all else 0. len is
   then how many bytes it has. VMBUS_NO_ROOM where out has less than VMBUS_MESSAGE_MOST bytes, and else VMBUS_NO_FORM where there is no such kind, a kind is given a port that has none, or sub has
   more than 16 bits. Another offer is written by vmbus_message_write. */
uint32_t vmbus_offer_write(const struct vmbus_offer *offer, uint8_t *out, size_t room, size_t *len);

/* A page list (GPADL) of 1 to VMBUS_LIST_MOST pages goes as a header, with the first 26 page frame numbers, and bodies, with the next 28 each and the last one with the rest
   (drivers/hv/channel.c, create_gpadl_header). */
#define VMBUS_LIST_MOST 8190

/* Message `number` of a list at the front of out: 0 is the header, and the bodies follow. len is then how many bytes it has. VMBUS_NO_ROOM where out has less than VMBUS_MESSAGE_MOST bytes, and
   else VMBUS_NO_FORM where the list has no such message, or there is no such list. A guest sends all until VMBUS_NO_FORM comes. */
uint32_t vmbus_gpadl_write(uint32_t relid, uint32_t gpadl, const uint64_t *pages, size_t count, uint32_t number, uint8_t *out, size_t room, size_t *len);

/* A list that comes in messages. All 0 is none. It is whole where `have` is `want`, and stays so until the next header. */
struct vmbus_page_list {
    uint32_t relid; /* the channel that it is for */
    uint32_t gpadl; /* its handle */
    uint32_t want;  /* how many pages it has */
    uint32_t have;  /* how many of them came: the first ones of `pages` */
};

enum vmbus_list_answer {
    VMBUS_LIST_WHOLE = 0,
    VMBUS_LIST_MORE = 1,     /* taken, and pages are missing */
    VMBUS_LIST_NO_PIECE = 2, /* the bytes are no header or body of a page list (vmbus_message_read says why, or its type) */
    VMBUS_LIST_REPEAT = 3,   /* a header whose handle is being built or is live: value is the handle */
    VMBUS_LIST_HANDLE = 4,   /* a header while another list is being built, or a body of another list: value is its handle */
    VMBUS_LIST_RANGE = 5,    /* a header whose range isn't one of whole pages: value is its offset, or where that is 0 its byte count */
    VMBUS_LIST_COUNT = 6,    /* a body with more frames (have) than are missing (need) */
    VMBUS_LIST_NO_ROOM = 7,  /* a header of a list with more pages (need) than `pages` has room for (have) */
    VMBUS_LIST_MISUSED = 8,  /* the numbers of `list` are none that these calls leave, or `pages` is shorter than its list */
};

/* Takes the header or the body that the bytes are, all of them: enum vmbus_list_answer. The first answer of the list above that holds comes, but that MISUSED is tested first. `live` are the
   handles of the lists that are live; whoever hears WHOLE puts list->gpadl among them, until it is torn down. `list` and `pages` are the same from a list's header on until it is whole. What isn't
   WHOLE or MORE changes neither of them. */
uint32_t vmbus_gpadl_take(const uint8_t *bytes, size_t len, const uint32_t *live, size_t lives, struct vmbus_page_list *list, uint64_t *pages, size_t room, struct vmbus_fault *fault);

/* ---- Packets (crates/vmbus_c). ---- */

/* A packet's descriptor; offset and length in words of 8 bytes. */
struct vmbus_packet {
    uint32_t kind, offset8, len8, flags;
    uint64_t tid;
};

/* The packet that the words are, all of them without the trailer: 0. Otherwise nothing is written, and the answer is
   1 fewer than two words;
   2 a length that isn't the number of words;
   3 a payload that begins in the descriptor or past the end;
   4 ranges that go past the payload's beginning. */
uint32_t vmbus_packet_read(const uint64_t *words, size_t len, struct vmbus_packet *packet);

/* A packet of type 6 or a completion (type 11, flags 0) at the front of out: the payload follows the descriptor, padded with zeros to whole words. len is then how many words it has, also
   where there is no room. VMBUS_NO_FORM where that is more than VMBUS_PACKET_MOST, or flags has more than 16 bits; then len stays. */
#define VMBUS_PACKET_MOST 384
uint32_t vmbus_packet_inband(uint64_t tid, uint32_t flags, const uint8_t *payload, size_t bytes, uint64_t *out, size_t room, size_t *len);
uint32_t vmbus_packet_completion(uint64_t tid, const uint8_t *payload, size_t bytes, uint64_t *out, size_t room, size_t *len);

/* A packet of type 9, with flags 1, that names `length` bytes from `offset` on in the first of these pages: a range for each page, and then the payload, padded as above. VMBUS_NO_FORM where
   the offset isn't in the first page, the range touches another number of pages, or the packet has more than VMBUS_PACKET_MOST words; then len stays. */
uint32_t vmbus_packet_pages(uint64_t tid, uint32_t offset, uint32_t length, const uint64_t *pages, size_t count, const uint8_t *payload, size_t bytes, uint64_t *out, size_t room, size_t *len);

/* The range of pages that begins at word `at` of the packet of type 9 that the words are (the first one at word VMBUS_FIRST_RANGE): its bytes, their offset in its first page, the word at which
   its page frame numbers begin, and how many there are; the next range begins behind them, if one does. 0; or, and then nothing is written, 1 where the words are no packet of type 9
   (vmbus_packet_read), or else 2 where no range with all its frames stands there before the payload. */
#define VMBUS_FIRST_RANGE 3
struct vmbus_range {
    uint32_t bytes, offset, frames_at, frames;
};
uint32_t vmbus_packet_range(const uint64_t *words, size_t len, uint32_t at, struct vmbus_range *range);

/* A packet of type 7, with flags 1, that names ranges of the buffer with the number pageset (Linux struct vmtransfer_page_packet_header, drivers/net/hyperv/netvsc.c): a word for each range, and
   then the payload, padded as above. len is then how many words it has, also where there is no room. VMBUS_NO_FORM where that is more than VMBUS_PACKET_MOST, or pageset has more than 16 bits;
   then len stays. */
struct vmbus_part {
    uint32_t bytes, offset;
};
uint32_t vmbus_packet_transfer(uint64_t tid, uint32_t pageset, const struct vmbus_part *parts, size_t count, const uint8_t *payload, size_t bytes, uint64_t *out, size_t room, size_t *len);

/* What the packet of type 7 that the words are names: 0. 1, and then nothing is written, where they are no packet of type 7 (vmbus_packet_read). */
struct vmbus_transfer {
    uint32_t pageset, parts; /* the number of the buffer, and how many ranges there are */
};
uint32_t vmbus_packet_transfer_read(const uint64_t *words, size_t len, struct vmbus_transfer *transfer);

/* Range `number`, from 0 on, of that packet: 0. Nothing is written where they are no packet of type 7 (1), or else where it has no such range (2). Whether a range lies in the buffer is for the
   caller to test. */
uint32_t vmbus_packet_part(const uint64_t *words, size_t len, uint32_t number, struct vmbus_part *part);

/* The numbers of a storage packet; 52 bytes follow them. */
struct vmbus_storage {
    uint32_t operation, flags, status;
};

/* The storage packet with which the bytes begin: 0. Otherwise nothing is written, and the answer is
   1 fewer than 64 bytes;
   2 an operation that there isn't;
   3 a request whose status isn't 0. */
uint32_t vmbus_storage_read(const uint8_t *bytes, size_t len, struct vmbus_storage *packet);

/* A storage packet is VMBUS_STORAGE bytes. These calls write one at the front of out; VMBUS_NO_ROOM where that has fewer. */
#define VMBUS_STORAGE 64
#define VMBUS_STORAGE_REST 12 /* where its 52 bytes begin */

/* The packet of these numbers and 52 bytes. VMBUS_NO_FORM where rest isn't 52 bytes, there is no such operation, or a request has a status. */
uint32_t vmbus_storage_write(const struct vmbus_storage *packet, const uint8_t *rest, size_t len, uint8_t *out, size_t room);

/* A request of the start-up: flags 1; `first`, in the first two of the 52 bytes, is the version that operation 9 asks for, major * 256 + minor, or the count that operation 13 asks for.
   VMBUS_NO_FORM where there is no such operation, or first has more than 16 bits. */
uint32_t vmbus_storage_start(uint32_t operation, uint32_t first, uint8_t *out, size_t room);

/* The host's answer to the request with which the bytes begin. VMBUS_NO_FORM where they are no storage packet, or operation 3. */
uint32_t vmbus_storage_answer(const uint8_t *bytes, size_t len, uint8_t *out, size_t room);

/* The packet of a disk's request: operation 3, flags 1, and an srb with the lengths and the direction of the command in the 16 bytes of cdb; a write gives `goes` bytes. VMBUS_NO_FORM where
   cdb isn't 16 bytes, its command isn't built (codes 00, 12, 25, 28, 2A, 35, 88, 8A and 9E are), or more than 4,096 bytes go or come. */
uint32_t vmbus_disk_ask(const uint8_t *cdb, size_t len, uint32_t goes, uint8_t *out, size_t room);

/* How the request ended whose completion the bytes begin with: 0, and status 1 (success) or 0x84 (refused, with this sense, which otherwise is 0). 1 where they are no storage packet, and 2
   where the status is another; then nothing is written. */
struct vmbus_disk_end {
    uint32_t status, moved, key, asc, ascq;
};
uint32_t vmbus_disk_end(const uint8_t *bytes, size_t len, struct vmbus_disk_end *end);

/* What the request with which the bytes begin asks of a disk: 0. 1 where they are no storage packet or another operation than 3; then nothing is written. */
struct vmbus_disk_asked {
    uint32_t command; /* 0 not built, 1 TEST UNIT READY, 2 INQUIRY, 3 READ CAPACITY (10), 4 READ, 5 WRITE, 6 SYNCHRONIZE CACHE, 7 code 9E */
    uint32_t transfer; /* how many bytes go, or may come */
    uint32_t plain; /* of INQUIRY: no page is asked for; of code 9E: it is READ CAPACITY (16) */
    uint32_t stop; /* 0, or the status with which it has to be stopped: 0x20 another device, 4 a command of more than 16 bytes */
    uint64_t allocation; /* how many bytes may come back at most */
    uint64_t lba, count;
};
uint32_t vmbus_disk_asked(const uint8_t *bytes, size_t len, struct vmbus_disk_asked *asked);

/* The answer to the request with which the bytes begin: the disk did it, and `back` bytes come back; or refused it with this sense; or it is stopped with this status. VMBUS_NO_FORM where they
   are no SCSI request, back is above 4,096, or another number above 255. */
uint32_t vmbus_disk_good(const uint8_t *bytes, size_t len, uint32_t back, uint8_t *out, size_t room);
uint32_t vmbus_disk_check(const uint8_t *bytes, size_t len, uint32_t key, uint32_t asc, uint32_t ascq, uint8_t *out, size_t room);
uint32_t vmbus_disk_stop(const uint8_t *bytes, size_t len, uint32_t status, uint8_t *out, size_t room);

/* The numbers of an NVSP message (Linux drivers/net/hyperv/hyperv_net.h). Those that its type doesn't have are 0. */
struct vmbus_nvsp {
    uint32_t kind;
    uint32_t min;
    uint32_t max;
    uint32_t version;
    uint32_t mdl_chain_length;
    uint32_t status;
    uint32_t major;
    uint32_t minor;
    uint32_t gpadl;
    uint32_t id;
    uint32_t count;
    uint32_t offset;
    uint32_t sub_alloc_size;
    uint32_t num_sub_allocs;
    uint32_t end_offset;
    uint32_t section_size;
    uint32_t channel_type;
    uint32_t section_index;
};

/* The NVSP message with which the bytes begin: 0, and the message is written. Otherwise nothing but the fault is written, and the answer is
   1 short: have and need bytes;
   2 unknown: value is the type. */
uint32_t vmbus_nvsp_read(const uint8_t *bytes, size_t len, struct vmbus_nvsp *message, struct vmbus_fault *fault);

/* The numbers of a Remote NDIS message, and the length of its buffer. Those that its type doesn't have are 0. */
struct vmbus_rndis {
    uint32_t kind;
    uint32_t request_id;
    uint32_t major;
    uint32_t minor;
    uint32_t max_transfer;
    uint32_t status;
    uint32_t device_flags;
    uint32_t medium;
    uint32_t max_packets;
    uint32_t alignment;
    uint32_t oid;
    uint32_t addressing_reset;
    uint32_t body_len;
};

/* The Remote NDIS message with which the bytes begin: 0, and the message and its buffer, at the front of body, are written. Otherwise the answer is
   1 short: have and need bytes;
   2 unknown: value is the type;
   3 long: have bytes;
   4 a field: field 1 is the buffer's offset, 2 its length, of this value;
   5 body has less than 1,514 bytes: nothing is looked at, and not even the fault is written.
   On 0 the fault stays as it was, and so does body behind the buffer. */
uint32_t vmbus_rndis_read(const uint8_t *bytes, size_t len, struct vmbus_rndis *message, uint8_t *body, size_t room, struct vmbus_fault *fault);

/* The NVSP message of these numbers at the front of out, in VMBUS_NVSP bytes, of which those behind its fields are 0. VMBUS_NO_FORM where no message has them: those that its type doesn't have
   are 0, and an id has 16 bits. */
#define VMBUS_NVSP 40
uint32_t vmbus_nvsp_write(const struct vmbus_nvsp *message, uint8_t *out, size_t room);

/* The Remote NDIS message of these numbers, with this buffer behind its fixed part, at the front of out; len is then how many bytes it has, also where there is no room. VMBUS_NO_FORM where no
   message has these numbers and this buffer: numbers that its type doesn't have are 0, body_len is the buffer's length, and that is 1,514 at most; then len stays. */
uint32_t vmbus_rndis_write(const struct vmbus_rndis *message, const uint8_t *body, size_t body_len, uint8_t *out, size_t room, size_t *len);

/* The guest's answer to any request of a heartbeat or a shutdown channel, and how many bytes it has: 28 where the request has fewer, and as many as the
   request otherwise. Where the reply has less room, nothing is written, and the answer is 0. The two slices may not overlap. */
size_t vmbus_heartbeat_answer(const uint8_t *request, size_t len, uint8_t *reply, size_t room);
size_t vmbus_shutdown_answer(const uint8_t *request, size_t len, uint8_t *reply, size_t room);

/* Whether a sender signals, where it sent from this write index and found this mask and read index of its peer. */
bool vmbus_raise_on_write(uint32_t old_write, uint32_t mask, uint32_t read);

/* Whether a consumer signals as it moves the read index from start to read: 1 or 0, or 2 where d isn't a ring's size (a multiple of 4,096 up to 134,217,728) or an
   index isn't a multiple of 8 below it. All numbers are bytes. */
uint32_t vmbus_raise_on_commit(uint32_t d, uint32_t write, uint32_t start, uint32_t read, uint32_t pending);

/* How the calls of an end end: what vmbus_end_..'s `ended` says, and what the calls of plans answer. One list for both. */
enum vmbus_answer {
    VMBUS_NO_CALL = 0,           /* `ended`: no call yet. A plan: the call doesn't fit the end's state or its numbers, and nothing changed */
    VMBUS_SENT_QUIET = 1,        /* sent, and no signal is owed */
    VMBUS_SENT_RAISED = 2,       /* sent, and the peer's signal is raised: after a plan by the caller, now */
    VMBUS_FULL = 3,              /* too little room for the packet */
    VMBUS_BAD_PEER = 4,          /* the peer's read index is in no form: the end is stopped */
    VMBUS_TOOK = 5,
    VMBUS_EMPTY = 6,             /* no packet */
    VMBUS_BAD_INDEX = 7,         /* the peer's write index is in no form: stopped */
    VMBUS_BAD_LENGTH = 8,        /* the packet's length is in no form: stopped */
    VMBUS_BAD_OFFSET = 9,        /* the payload's offset is in no form: stopped */
    VMBUS_COMMITTED_QUIET = 10,  /* the room is given back, and no signal is owed */
    VMBUS_COMMITTED_RAISED = 11, /* and the peer's signal is raised: after a plan by the caller, now */
    VMBUS_FELL_ASLEEP = 12,
    VMBUS_FOUND_WORK = 13,       /* an arm found something, and the end is awake: after a plan the caller stores mask 1 */
    VMBUS_NO_SIGNAL = 14,        /* the end is asleep, and its signal is down */
    VMBUS_WOKE = 15,             /* its signal was up, and it is awake: after a plan the caller stores mask 1 */
    VMBUS_MARKED = 16,
    VMBUS_PEER_MARK_DOWN = 17,
    VMBUS_PEER_MARK_UP = 18,
    VMBUS_PLANNED = 19,          /* of plans alone: go on as planned */
    VMBUS_FOUND_WORK_ROOM = 20,  /* as VMBUS_FOUND_WORK, and the caller stores pending 0 too */
    VMBUS_WOKE_ROOM = 21,        /* as VMBUS_WOKE, and the caller stores pending 0 too */
    VMBUS_PAGE_DUE = 22,         /* of data pages, as all below: words of a page are to be loaded first. Of a take that is done: it is taken, and they are */
    VMBUS_PAGE_NOT_OWNED = 23,   /* the end doesn't have the page, or has lent it */
    VMBUS_PAGE_OUTSIDE = 24,     /* words past those of the page that the end may store to */
    VMBUS_ID_OPEN = 25,          /* a packet that lends a page has the id of a request that isn't completed */
    VMBUS_ID_NOT_OWED = 26,      /* a completion answers no request that was taken */
    VMBUS_NO_IDS = 27,           /* no room for one more id: the caller's array is full */
    VMBUS_PAGE_DONE = 28,        /* what was planned counts as done */
};

/* ---- An end whose every step is named (crates/vmbus_ring_c): the slow form, for callers who want to see each access. ---- */

/* One end of a channel. It is read, kept and copied, and changed by the calls below alone. Each call tests the numbers first. */
struct vmbus_end {
    uint32_t cells; /* of a ring; indices and lengths count cells of 8 bytes */
    uint32_t write; /* private write index of the outgoing ring */
    uint32_t read; /* private read index of the incoming ring */
    uint32_t start; /* read index that was last committed */
    uint32_t before;
    uint32_t seen;
    uint32_t len; /* words of the packet under way */
    uint32_t done;
    uint32_t value; /* low half of the value that the call stopped at */
    uint32_t want; /* bytes that the last arm waits for, or 0 */
    uint32_t room; /* free cells that the last send which had too little room found */
    uint32_t words; /* words of the packet of the last call that took one, or had too little room */
    uint32_t side; /* 0 the guest's end, 1 the host's */
    uint32_t stage; /* 0 no call is under way, 1 the end is stopped */
    uint32_t ended; /* how the last call ended: enum vmbus_answer */
    uint32_t masked; /* this and the next five are flags: set where not 0 */
    uint32_t asleep;
    uint32_t marked;
    uint32_t peer_marked;
    uint32_t drained;
    uint32_t saw;
};

/* A step that the caller makes: a load, a store or an exchange of one 64-bit word. */
struct vmbus_step {
    uint32_t op;    /* 1 load, 2 store, 3 raise a signal (store 1 there), 4 take one (exchange it with 0), 5 store a mark (1) */
    uint32_t place; /* 1 write, 2 read, 3 mask, 4 pending, 5 feature, 6 a cell, 7 a signal, 8 a mark, 9 a word of a data page, which no end here has */
    uint32_t which; /* of a ring: 0 the one that the host empties, 1 the guest's; of a signal or a mark: 0 the guest's, 1 the host's */
    uint32_t at;    /* the offset of a cell in bytes */
    uint64_t value; /* what is stored */
};

/* Makes a new end of a channel whose rings have d bytes of data: a multiple of 4,096 from 4,096 to 134,217,728. host is 1 for the host's end, and 0 for the guest's. False, and then nothing
   is written, exactly where d or host is another number. */
bool vmbus_end_make(struct vmbus_end *end, uint32_t host, uint32_t d);

/* Begin a call. False, and then nothing changes, exactly where the numbers aren't those of an end, where it is stopped, asleep (but for a poll, which asks for it), marked or inside a call, where
   len is below 2 or doesn't fit (len + 1 must be below the cells), where want is 1 to 23 or not below the bytes of the ring, or where an arm comes before all that was
   taken is committed. */
bool vmbus_end_begin_send(struct vmbus_end *end, uint32_t len);
bool vmbus_end_begin_take(struct vmbus_end *end);
bool vmbus_end_begin_commit(struct vmbus_end *end);
bool vmbus_end_begin_arm(struct vmbus_end *end, uint32_t want);
bool vmbus_end_begin_poll(struct vmbus_end *end);
bool vmbus_end_begin_mark(struct vmbus_end *end);
bool vmbus_end_begin_peer_mark(struct vmbus_end *end);

/* The next step of the call under way, with the packet that is being sent, or none. False, and then nothing is written, where no call is under way. */
bool vmbus_end_next(const struct vmbus_end *end, const uint64_t *packet, size_t len, struct vmbus_step *step);

/* What the step gave: the value that it loaded or exchanged, or anything for a store. False, and then nothing changes, where no call is under way. */
bool vmbus_end_feed(struct vmbus_end *end, uint64_t value);

/* The line of that step, where it gave this value, as `vmbus trace` reads it: it ends with LF and has at most VMBUS_LINE bytes, and no 0 behind it. Its length; 0, and then nothing is written,
   where no call is under way or the line doesn't fit into so many bytes. Call it before the end takes the value. The line of a call is `call guest take` and so on (docs/SCRIPT.md). */
#define VMBUS_LINE 96
size_t vmbus_end_step_line(const struct vmbus_end *end, const uint64_t *packet, size_t len, uint64_t value, uint8_t *line, size_t room);

/* ---- An end by plans (crates/ring_call_plan_c): C loads the few words that decide, and a call says what C copies and stores. docs/C.md has the rules. ---- */

/* One end. C reads it, keeps it in private memory and copies it, and changes it by the calls below alone: a call refuses (VMBUS_NO_CALL) an end whose numbers are in no form. */
struct vmbus_plan_end {
    uint32_t cells; /* of a ring; indices and lengths count cells of 8 bytes */
    uint32_t write; /* private write index of the outgoing ring */
    uint32_t read;  /* private read index of the incoming ring */
    uint32_t start; /* read index that was last committed */
    uint32_t seen;
    uint32_t len;
    uint32_t want;  /* bytes that the last arm waits for, or 0 */
    uint32_t state; /* enum vmbus_plan_state */
};

enum vmbus_plan_state {
    VMBUS_AT_REST = 0,
    VMBUS_AT_STOP = 1,   /* for good: the peer broke a rule */
    VMBUS_AT_SEND = 2,   /* a send is planned, and not done */
    VMBUS_AT_TAKE = 3,   /* a take waits for the first cell */
    VMBUS_AT_COMMIT = 4,
    VMBUS_AT_ARM = 5,
    VMBUS_AT_SLEEP = 6,
    VMBUS_AT_MARK = 7,   /* it said that it sends nothing more */
};

/* The stores of a send: `first` words of the packet from byte `at` of the ring on, then `second` words from its beginning on; the trailer; the write index. */
struct vmbus_send_plan {
    uint32_t at, first, second, trailer_at;
    uint64_t trailer;
    uint32_t write;
};

/* The loads of a take after the packet's first word: `first` words from byte `at` of the ring on, then `second` words from its beginning on. The packet has `len` words, and its payload
   begins at word `offset`. */
struct vmbus_take_plan {
    uint32_t at, first, second, len, offset;
};

/* A new end of rings of so many bytes: false, and then nothing changes, exactly where that is no multiple of 4,096 from 4,096 to 134,217,728. */
bool vmbus_plan_make(struct vmbus_plan_end *end, uint32_t bytes);
uint32_t vmbus_send_plan(struct vmbus_plan_end *end, uint64_t head, uint32_t read, struct vmbus_send_plan *plan);
uint32_t vmbus_send_done(struct vmbus_plan_end *end, uint32_t mask, uint32_t read);
uint32_t vmbus_take_plan(struct vmbus_plan_end *end, uint32_t write, uint32_t *at);
uint32_t vmbus_take_head(struct vmbus_plan_end *end, uint64_t head, struct vmbus_take_plan *plan);
uint32_t vmbus_commit_plan(struct vmbus_plan_end *end, uint32_t *read);
uint32_t vmbus_commit_done(struct vmbus_plan_end *end, uint32_t feature, uint32_t pending, uint32_t write);
uint32_t vmbus_arm_plan(struct vmbus_plan_end *end, uint32_t want);
uint32_t vmbus_arm_done(struct vmbus_plan_end *end, uint32_t write, uint32_t read, uint64_t mark);
uint32_t vmbus_poll_done(struct vmbus_plan_end *end, uint64_t signal);
uint32_t vmbus_mark_done(struct vmbus_plan_end *end);

/* ---- Data pages by plans (crates/page_call_plan_c): which pages an end has, has lent and holds, and what it may store, load, lend and complete. docs/C.md has the rules. ---- */

/* What an end has to do with a page of its channel. Another number than these is VMBUS_PAGE_AWAY too. */
enum vmbus_page_owner {
    VMBUS_PAGE_AWAY = 0, /* it isn't the page's home, and doesn't hold it */
    VMBUS_PAGE_HAS = 1,  /* it is the page's home, and has it */
    VMBUS_PAGE_LENT = 2, /* it is the page's home, and has lent its first words */
    VMBUS_PAGE_HELD = 3, /* it isn't the page's home, and holds its first words */
};
struct vmbus_page {
    uint64_t tid;   /* the id of the packet by which the page is lent or held */
    uint32_t words; /* how many of its first words are; a word has 8 bytes, a page 512 words */
    uint32_t owner; /* enum vmbus_page_owner */
};

/* So many requests with this id. A slot whose count is 0 is free. */
struct vmbus_id {
    uint64_t tid, count;
};

enum vmbus_page_state {
    VMBUS_PAGE_IDLE = 0,
    VMBUS_PAGE_STORING = 1, /* stores are planned, and not done */
    VMBUS_PAGE_LOADING = 2,
    VMBUS_PAGE_SENDING = 3,
    VMBUS_PAGE_TAKING = 4,
};
struct vmbus_page_end {
    uint32_t state;     /* enum vmbus_page_state */
    uint32_t due_page;  /* the page whose first words are to be loaded */
    uint32_t due_words; /* how many, or 0 where none is */
};

/* Bytes of a page that C copies, all in one run. */
struct vmbus_page_run {
    uint32_t page, at, bytes;
};

/* An end has a slot a page, 1 to 128; `asks`, the ids of its own requests that aren't completed; and `owed`, the ids of its peer's. Any arrays are safe. The last argument of vmbus_page_make is
   true for the host's end, whose pages are those from 64 on. A packet is all of its words. */
bool vmbus_page_make(struct vmbus_page_end *end, struct vmbus_page *slots, size_t pages, struct vmbus_id *asks, size_t ask_slots, struct vmbus_id *owed, size_t owed_slots, bool host);
uint32_t vmbus_page_store_plan(struct vmbus_page_end *end, const struct vmbus_page *slots, size_t pages, uint32_t page, uint32_t from, uint32_t words, struct vmbus_page_run *run);
uint32_t vmbus_page_store_done(struct vmbus_page_end *end);
uint32_t vmbus_page_load_plan(struct vmbus_page_end *end, const struct vmbus_page *slots, size_t pages, struct vmbus_page_run *run);
uint32_t vmbus_page_load_done(struct vmbus_page_end *end);
uint32_t vmbus_page_send_plan(struct vmbus_page_end *end, const struct vmbus_page *slots, size_t pages, const struct vmbus_id *asks, size_t ask_slots, const struct vmbus_id *owed, size_t owed_slots,
    const uint64_t *packet, size_t words);
uint32_t vmbus_page_send_done(struct vmbus_page_end *end, struct vmbus_page *slots, size_t pages, struct vmbus_id *asks, size_t ask_slots, struct vmbus_id *owed, size_t owed_slots,
    const uint64_t *packet, size_t words);
uint32_t vmbus_page_take_plan(struct vmbus_page_end *end, const struct vmbus_page *slots, size_t pages, const struct vmbus_id *owed, size_t owed_slots);
uint32_t vmbus_page_take_done(struct vmbus_page_end *end, struct vmbus_page *slots, size_t pages, struct vmbus_id *asks, size_t ask_slots, struct vmbus_id *owed, size_t owed_slots,
    const uint64_t *packet, size_t words);
uint32_t vmbus_page_drop(struct vmbus_page_end *end);
bool vmbus_page_ready(const struct vmbus_page_end *end);

/* ---- Whole calls over shared pages, by C's own words (the builtins of gcc and clang): the accesses of a plan, each with its order. ---- */

/* The header of a ring, a page of which these are the first words, at the places of Linux's struct hv_ring_buffer; and its cells, the pages behind it. */
struct vmbus_ring_words {
    uint32_t write, read, mask, pending, reserved[12], feature;
};
struct vmbus_ring {
    struct vmbus_ring_words *head;
    char *cells;
};
_Static_assert(offsetof(struct vmbus_ring_words, feature) == 64, "the layout of a ring's header");

static inline uint32_t vmbus_load(const uint32_t *p)
{
    return __atomic_load_n(p, __ATOMIC_ACQUIRE);
}

/* Between a store by which the peer decides to wake this end, and a load by which this end decides. VMBUS_WITHOUT_FENCES is for the check that sees a wake-up lost without it. */
static inline void vmbus_full_fence(void)
{
#ifndef VMBUS_WITHOUT_FENCES
    __atomic_thread_fence(__ATOMIC_SEQ_CST);
#endif
}

/* Copies words to or from a ring. What the caller reads of a private copy later, the compiler may not load from the ring again. */
static inline void vmbus_copy(void *to, const void *from, uint32_t words)
{
    uint64_t *t = to;
    const uint64_t *f = from;
    if (words > 16)
        memcpy(to, from, 8 * (size_t)words);
    else
        for (uint32_t i = 0; i < words; i++)
            __atomic_store_n(t + i, __atomic_load_n(f + i, __ATOMIC_RELAXED), __ATOMIC_RELAXED);
    __atomic_signal_fence(__ATOMIC_SEQ_CST);
}

/* Sends a packet, whose first word gives its length: VMBUS_SENT_QUIET, or VMBUS_SENT_RAISED, and then the caller raises the peer; or why it isn't sent. */
static inline uint32_t vmbus_ring_send(struct vmbus_plan_end *e, struct vmbus_ring out, const uint64_t *packet)
{
    struct vmbus_send_plan p;
    uint32_t a = vmbus_send_plan(e, packet[0], vmbus_load(&out.head->read), &p);
    if (a != VMBUS_PLANNED)
        return a;
    vmbus_copy(out.cells + p.at, packet, p.first);
    if (p.second)
        vmbus_copy(out.cells, packet + p.first, p.second);
    __atomic_store_n((uint64_t *)(out.cells + p.trailer_at), p.trailer, __ATOMIC_RELAXED);
    __atomic_store_n(&out.head->write, p.write, __ATOMIC_RELEASE);
    vmbus_full_fence();
    uint32_t mask = vmbus_load(&out.head->mask);
    return vmbus_send_done(e, mask, mask ? 0 : vmbus_load(&out.head->read));
}

/* Takes a packet into private memory with room for the ring's cells: VMBUS_TOOK, and then it has `len` words, and its payload begins at word `offset`; or why none is taken. */
static inline uint32_t vmbus_ring_take(struct vmbus_plan_end *e, struct vmbus_ring in, uint64_t *packet, uint32_t *len, uint32_t *offset)
{
    struct vmbus_take_plan p;
    uint32_t at, a = vmbus_take_plan(e, vmbus_load(&in.head->write), &at);
    if (a != VMBUS_PLANNED)
        return a;
    packet[0] = __atomic_load_n((uint64_t *)(in.cells + at), __ATOMIC_RELAXED);
    a = vmbus_take_head(e, packet[0], &p);
    if (a != VMBUS_PLANNED)
        return a;
    vmbus_copy(packet + 1, in.cells + p.at, p.first);
    if (p.second)
        vmbus_copy(packet + 1 + p.first, in.cells, p.second);
    *len = p.len;
    *offset = p.offset;
    return VMBUS_TOOK;
}

/* Gives back the room of all packets that were taken: VMBUS_COMMITTED_QUIET, or VMBUS_COMMITTED_RAISED, and then the caller raises the peer. */
static inline uint32_t vmbus_ring_commit(struct vmbus_plan_end *e, struct vmbus_ring in)
{
    uint32_t read, a = vmbus_commit_plan(e, &read);
    if (a != VMBUS_PLANNED)
        return a;
    __atomic_store_n(&in.head->read, read, __ATOMIC_RELEASE);
    vmbus_full_fence();
    uint32_t feature = vmbus_load(&in.head->feature), pending = feature & 1 ? vmbus_load(&in.head->pending) : 0;
    return vmbus_commit_done(e, feature, pending, pending ? vmbus_load(&in.head->write) : 0);
}

/* What an end that is awake again stores. */
static inline void vmbus_ring_awake(struct vmbus_ring out, struct vmbus_ring in, uint32_t a)
{
    if (a == VMBUS_FOUND_WORK || a == VMBUS_FOUND_WORK_ROOM || a == VMBUS_WOKE || a == VMBUS_WOKE_ROOM)
        __atomic_store_n(&in.head->mask, 1, __ATOMIC_RELAXED);
    if (a == VMBUS_FOUND_WORK_ROOM || a == VMBUS_WOKE_ROOM)
        __atomic_store_n(&out.head->pending, 0, __ATOMIC_RELAXED);
}

/* Arms the signal, for packets, and for more room than `want` bytes where that isn't 0. `mark` is the peer's mark, or null for a peer that has none, as Linux's. Whoever hears VMBUS_FELL_ASLEEP waits
   for its signal. It may load more words than count. */
static inline uint32_t vmbus_ring_arm(struct vmbus_plan_end *e, struct vmbus_ring out, struct vmbus_ring in, uint32_t want, const uint64_t *mark)
{
    uint32_t a = vmbus_arm_plan(e, want);
    if (a != VMBUS_PLANNED)
        return a;
    if (want)
        __atomic_store_n(&out.head->pending, want, __ATOMIC_RELAXED);
    __atomic_store_n(&in.head->mask, 0, __ATOMIC_RELEASE);
    vmbus_full_fence();
    uint32_t write = vmbus_load(&in.head->write), read = want ? vmbus_load(&out.head->read) : 0;
    a = vmbus_arm_done(e, write, read, mark ? __atomic_load_n(mark, __ATOMIC_ACQUIRE) : 0);
    vmbus_ring_awake(out, in, a);
    return a;
}

/* Takes the signal of an end that is asleep: VMBUS_WOKE or VMBUS_WOKE_ROOM where it was raised, and VMBUS_NO_SIGNAL where not. */
static inline uint32_t vmbus_ring_poll(struct vmbus_plan_end *e, struct vmbus_ring out, struct vmbus_ring in, uint64_t *signal)
{
    uint32_t a = vmbus_poll_done(e, __atomic_exchange_n(signal, 0, __ATOMIC_SEQ_CST));
    vmbus_ring_awake(out, in, a);
    return a;
}

/* The data pages of a channel: what this end keeps of them, in private memory, and the pages themselves, 4,096 bytes each, which both ends map. */
struct vmbus_pages {
    struct vmbus_page_end end;
    struct vmbus_page *slots;
    struct vmbus_id *asks, *owed;
    size_t count, ask_slots, owed_slots; /* of slots, asks and owed */
    char *shared;
};

/* Stores so many words of a page, from word `from` on: VMBUS_PAGE_DONE, or why not. What the peer sees of them comes with the packet that lends the page, or gives it back. */
static inline uint32_t vmbus_page_store(struct vmbus_pages *p, uint32_t page, uint32_t from, uint32_t words, const void *bytes)
{
    struct vmbus_page_run run;
    uint32_t a = vmbus_page_store_plan(&p->end, p->slots, p->count, page, from, words, &run);
    if (a != VMBUS_PLANNED)
        return a;
    memcpy(p->shared + 4096 * (size_t)run.page + run.at, bytes, run.bytes);
    return vmbus_page_store_done(&p->end);
}

/* Loads the words that came with the packet that was taken last, into private memory with room for a page: VMBUS_PAGE_DONE, and then *bytes of them; or why not. */
static inline uint32_t vmbus_page_load(struct vmbus_pages *p, void *to, uint32_t *bytes)
{
    struct vmbus_page_run run;
    uint32_t a = vmbus_page_load_plan(&p->end, p->slots, p->count, &run);
    if (a != VMBUS_PLANNED)
        return a;
    vmbus_copy(to, p->shared + 4096 * (size_t)run.page + run.at, run.bytes / 8);
    *bytes = run.bytes;
    return vmbus_page_load_done(&p->end);
}

/* vmbus_ring_send of an end with data pages: what it answers, or why the packet may not be sent. A page that the packet lends, or gives back, is stored before. */
static inline uint32_t vmbus_pages_send(struct vmbus_plan_end *e, struct vmbus_ring out, struct vmbus_pages *p, const uint64_t *packet)
{
    size_t words = packet[0] >> 32 & 0xffff;
    uint32_t a = vmbus_page_send_plan(&p->end, p->slots, p->count, p->asks, p->ask_slots, p->owed, p->owed_slots, packet, words);
    if (a != VMBUS_PLANNED)
        return a;
    a = vmbus_ring_send(e, out, packet);
    if (a == VMBUS_SENT_QUIET || a == VMBUS_SENT_RAISED)
        vmbus_page_send_done(&p->end, p->slots, p->count, p->asks, p->ask_slots, p->owed, p->owed_slots, packet, words);
    else
        vmbus_page_drop(&p->end);
    return a;
}

/* vmbus_ring_take of an end with data pages: what it answers, but VMBUS_PAGE_DUE where it is taken and a page came with it, and then vmbus_page_load comes next; or why no packet may be taken yet.
   VMBUS_NO_CALL after a packet that is taken says that the numbers of `p` were changed by something else. */
static inline uint32_t vmbus_pages_take(struct vmbus_plan_end *e, struct vmbus_ring in, struct vmbus_pages *p, uint64_t *packet, uint32_t *len, uint32_t *offset)
{
    uint32_t a = vmbus_page_take_plan(&p->end, p->slots, p->count, p->owed, p->owed_slots);
    if (a != VMBUS_PLANNED)
        return a;
    a = vmbus_ring_take(e, in, packet, len, offset);
    if (a == VMBUS_TOOK)
        return vmbus_page_take_done(&p->end, p->slots, p->count, p->asks, p->ask_slots, p->owed, p->owed_slots, packet, *len);
    vmbus_page_drop(&p->end);
    return a;
}

/* Says that the end sends nothing more: VMBUS_MARKED, and then the caller raises the peer. Its own mark is no word of a ring, and a peer that has no marks, as Linux's, doesn't look at it. */
static inline uint32_t vmbus_ring_mark(struct vmbus_plan_end *e, uint64_t *mark)
{
    uint32_t a = vmbus_mark_done(e);
    if (a != VMBUS_PLANNED)
        return a;
    __atomic_store_n(mark, 1, __ATOMIC_RELEASE);
    return VMBUS_MARKED;
}

#endif
