/* securestore: named records over a removable card and a small protected chip. Link libsecurestore.a, which needs memcpy, memmove and memset and nothing else.
 *
 * The library keeps nothing between calls, allocates nothing and does no input or output. The caller reads the card (kv) and the chip (rbp) into two
 * buffers, lends them to a call, and writes both back, the chip first, after a set, set_finalize, save_key, store_mix, remove or reset that answered
 * SECURESTORE_OK. A call's stack was measured at 4.5 kB at most (save_key, x86-64); what a call leaves there, plaintext, the device key and derived keys among
 * it, is not wiped.
 *
 * Pointers. The library is proved for lent memory, and what makes memory lent is the caller's part:
 * - no pointer is null, also where its length is 0;
 * - each is valid for its length (or for the size in its declaration), for writing where it is not const, and aligned for its type;
 * - a length is that of an object, which has at most half the address space; it counts bytes, in levels and pans floats;
 * - memory that a call may write overlaps nothing else that is lent to the same call;
 * - nobody else uses lent memory while the call runs.
 * Nothing else is asked: any contents, any smaller or larger buffer and any number has an answer.
 *
 * Answers. A store call returns one of the numbers below, that of the first test that fails in the order given at the call. A refusal changes no lent
 * buffer and writes 0 through every out-number (count, data_size, flags, name_len, next_slot, a key file's fields, session_id, sends). One thing besides is
 * written by a refusal: a refused set_start makes its handle all zero.
 *
 * Names. A name has 1 to 64 bytes, each 0x20 to 0x7e or 0x80 to 0xff. Any other byte, that is a control byte (0x00 to 0x1f) or 0x7f, is refused with 3 in
 * a name or prefix that is given, and is damage (2) in one that stands on card or chip. No encoding is asked for and nothing is made alike: spaces count,
 * upper and lower case differ, and an accented letter in UTF-8 and in Latin-1 gives two names. So names are bytes, with no terminator: whoever shows them
 * must expect any of these bytes, also broken UTF-8 and 0x80 to 0x9f, which some terminals obey (examples/rollback.c shows what is not ASCII as \xNN).
 * Versions before 0.2.0 knew 0x21 to 0x7e alone. To a box with one of them a card or chip with another name is damaged: give all boxes 0.2.0 first.
 *
 * Slots. The used slots of the card stand at its front, in the order of their names, and the free ones, all zero, behind them; so do those of the chip. Names
 * are compared byte by byte as unsigned numbers, and a name comes before all that it is a prefix of. Any other order is damage (2).
 * - A set of a new name puts its slot in its place, and the used slots behind it move one on. A set of a known name writes that name's slot alone. A remove
 *   takes the slot out, the used ones behind it move one back, and what was the last used slot becomes all zero. Card and chip move each by its own names. So
 *   the number of a slot holds until the next set of a new name or the next remove; what this means for a walk is said at securestore_iterator_next.
 * - Its length and what it holds fix every byte of an undamaged card, in whatever order things came there: two cards of one length are equal under memcmp just
 *   where they have the same names with the same records. So it is with two chips. A record is meant with all its bytes: with another IV, or under another
 *   device key, the same data give other ones (examples/compare.c).
 * - To take a slot out by hand, move all slots behind it one back and make the last slot of the buffer all zero. A slot that is made all zero where it stands
 *   leaves a hole, which is damage, unless it is the last used one.
 * - Versions before 0.7.0 gave a new name the lowest free slot, and a remove left a hole. Their cards and chips answer 2 here, unless all used slots happen
 *   to stand at the front and in order. Nothing on them is lost: reset nothing, but sort the slots, those of the card and those of the chip, and write both to
 *   another place (examples/compare.c; see Power). No byte within a slot changes, so each record is what it was, write once or not, and so is what the chip
 *   knows; device key and older version are not needed. Where it still answers 2, a slot is bad in itself or a name stands twice. The other way is to read
 *   each record by the older version, with its flags, and to set it by this one on another card and chip that are all zero, write-once ones too, with a new
 *   IV; what the older version refuses to read is left behind so.
 *   An older version reads what this one wrote, but after a set or remove of its own the order may be lost: give all boxes 0.7.0 first.
 *
 * Protection is what the stored record's flags ask for, and these flags are on the card; but a name that the chip holds is read and set with replay
 * protection alone. The chip holds it from a set with replay protection until such a record of it is removed or all is reset. In this time get and get_info
 * answer 0 only for a record with replay protection whose CMAC is right and equal to the chip's: an old record, whose CMAC is another, is refused, and so is
 * one that asks for less, whoever put it on the card. A set without replay protection is refused too.
 * Where the chip does not hold the name (never set so, removed, or a chip that was reset or exchanged), a record with replay protection is refused and any
 * other is judged by its own flags alone: without replay protection nothing tells how old it is, without integrity nothing tells who wrote it, and whoever
 * can write the card can put it there. A caller for whom this matters asks securestore_get_info on the same buffers for the flags, and compares them before
 * it uses the data.
 * Versions before 0.5.0 did not ask the chip about a record without replay protection, and stored one where the chip held the name. Nothing on the media is
 * new: a box with an older version still serves such a record, and here it answers 12. How to clear it stands below, at Chip slots left over.
 *
 * Records in chunks (incremental set). A record that arrives in pieces, over the air say, is set by three calls: set_start makes a handle of name, flags,
 * IV and declared size, set_add_data puts each chunk behind the one before it, and set_finalize stores what is held. However the data were divided, it
 * answers and stores what one set of them would, on card and chip as they then are; what is said here of a set holds of a finalize.
 * - Handle (88 bytes) and staging buffer (480 bytes) are the caller's, a pair for each record that is on its way. The library keeps no pointer to them and
 *   there is nothing to close: a record that never comes to its end is given up by forgetting both. Power lost before the finalize harms neither medium.
 * - set_start and set_add_data are lent neither card nor chip, and judge neither the name's bytes nor the flags. That a name is bad or in use, that flags
 *   are bad or differ, that there is no room: only the finalize tells. After a refusal it can be called again once the cause is gone.
 * - A chunk has no number here. That none is lost, doubled or out of order is for the caller to see, before set_add_data (examples/receive.c).
 * - Between the calls handle and staging buffer may be changed, and they may hold anything: what stands there at the finalize is what is stored, and a
 *   handle whose sizes do not fit is answered with 19. Whoever can write there decides name, flags and data.
 * - The staging buffer holds the data in plaintext, for a record with confidentiality too, and the handle holds name and IV. No call wipes them: the
 *   caller does, when the record is stored or given up.
 * - A finalize does not use the handle up: another is another set of the same bytes, so that of a write-once record answers 7. With confidentiality its
 *   IV is for these bytes alone: before others are finalized, start again with a new IV. An all-zero handle is never stored: its name is empty, 3.
 *
 * Mixes. A mix is what a player hears: a session number, and up to 16 sends, each of them muted, or with a level, or with a level and a pan. It is kept as
 * the data of a record whose name begins with "mix/" ("mix/" alone is such a name too), and found by its session number, without its name: a player who was
 * cut off comes back with the number.
 * - A mix has 9 to 153 bytes: session number (8), count of sends (1), then for each send its tag (1), level (4) and pan (4). Numbers are little-endian; level
 *   and pan are the bits of a 32-bit float (IEEE 754, as C's float must be). Tag 0 is muted, 1 has a level, 2 a level and a pan; the bytes of what a send has
 *   not are zero. encode_mix makes these bytes of floats, decode_mix gives the floats back, bit for bit, and no mix has two encodings.
 * - A level lies from 0 to 4, a pan from -1 to 1, the ends included. -0 counts as 0, and its sign is kept. A NaN or an infinity is out of range. Bytes that
 *   break a rule, or are too many or too few, are no mix, 20.
 * - encode_mix and decode_mix are lent neither card nor chip. store_mix writes what a set writes. find_mix writes mix_buf and *count alone.
 * - store_mix does not ask whether another record holds the session, so there may come to be two; then find_mix answers 21 for it until one is removed or
 *   stored with another number. To keep a session's new mix, store it under the name and with the flags that the old one has.
 * - find_mix tries every record on the card whose name begins with "mix/", as a get would. One that get refuses (8, 11, 12) or whose data are no mix (20)
 *   may be the one that is looked for or a second one, so every find, of any session, then answers that number: of several that of the first name. A
 *   plain set can put such data there, and so can whoever writes the card; power that is lost while a mix with replay protection is written back can leave
 *   such a record. To get out of it, go over the names with iterator_next and the prefix "mix/", get each and decode what it gives: the first that is
 *   refused is the bad one. Remove it, or store it again with its own flags. Where both answer 7 or 8 (write once, or not well formed), what helps is the
 *   right card, or the record's slot taken out of the card's buffer by hand, or a reset.
 * - A name that the chip alone holds is not tried. So where the card lost a mix with replay protection, find_mix answers 6 and a get of its name 12.
 * - A session number is no secret and shows nothing of who asks: whoever gives it is given the mix. It is part of the record's data, so it can be read on
 *   the card where confidentiality is not asked for. Who may come back is for the caller to test.
 * - Integrity and replay protection are the caller's choice, by store_mix's flags, and each record is judged by its own (see Protection above). Whoever can
 *   write the card can make every find be refused, by one bad record, and can put a mix without protection under a name that the chip does not hold; where
 *   no other record has its session, find_mix gives it. find_mix gives neither name nor flags: a caller for whom this matters goes over the names, asks
 *   securestore_get_info of each, and accepts no card that has a mix with other flags than those that it sets.
 * - A find tests card and chip once, as every call does, then reads each mix on the card, and once more the one that it gives: its time grows with their
 *   number.
 *
 * Power. Writing card and chip back is two writes, which the library cannot make atomic; a journal of both buffers can. Without replay protection a set
 * or remove changes the card alone. With it, power lost between the two writes leaves one of two states. In both, get and get_info answer 12 and reset 0.
 * - The card has the record, the chip has another CMAC or none. A set with the record's flags answers 0, and so does a remove. If the record is write
 *   once, every set and every remove answers 7 until a reset; only writing the chip's buffer after all, if it was kept, completes the set.
 * - The chip has the name, the card has not. Whatever the lost record's flags, remove answers 6, a set with write once 7, any other set 12 without replay
 *   protection and 0 with it. Clearing the chip's slot, as below, makes the name free again, for any flags; no reset is needed.
 * So write the chip first: a write-once set then ends in the second state, and a remove can be repeated. A reset can be repeated in either order.
 * A write that is itself cut short is worse, and can harm records that the call was not about: a set of a new name and a remove change every slot from the
 * name's place to the last used one. The medium may then answer 2 to all calls but reset, since a name stands twice or a slot is half written. Or, after a set
 * that was written from front to back or a remove that was written from back to front, it may be in order and lack a slot that was only to move, or the slot in
 * which the write stopped has the name of one record and bytes of another, or zeros. A get of a name that was only to move then answers 6, 8, 11 or 12; of a
 * record without replay protection it may answer 0 with another record's data or with zeros. So do not write over the only copy. Keep two areas on each
 * medium, card and chip, write them in turn with a number and a check sum of the caller's, and take the newest that is whole: then a write that was cut short
 * is as one that was not begun, and the states above are all that there are.
 *
 * Chip slots left over. After a power loss as above, or where another card is put in or someone wrote to it, the chip may hold a name that the card lacks
 * or has in a record without replay protection. Get and get_info answer 12 (8 or 11 if that record is bad in itself), and the slot occupies the chip. The
 * iterator gives the card's names alone. In the chip's buffer a used slot has 1 in byte 0, the name's length in byte 1, the name from byte 2 on. To clear one:
 * - The card lacks the name. Set it with integrity and replay protection but not write once (flags 12 or 14, any data), then remove it. This needs a free
 *   slot on the card (else the set answers 10) and none in the chip, and it leaves the card's bytes as they were.
 * - The card has a record of it without replay protection. No set answers 0; one with the record's flags answers 12. Remove clears the card's slot and keeps
 *   the chip's: now the card lacks the name, and it has a free slot.
 * - That record is write once, or not well formed. Every set and every remove answers 7, or 8. What helps is the right card, or the record's slot taken out
 *   of the card's buffer by hand (see Slots above; now the card lacks the name), or a reset.
 *
 * Write once makes set and remove answer 7 while the card has the record. It protects neither from a reset nor from whoever can write or exchange the
 * card: on a blank card (all zero) the name is free again, and any set that finds room answers 0. Only if the chip has the name, that is for a record with
 * replay protection, get then answers 12, a set with write once 7 and any other set without replay protection 12; a set with flags 12 or 14 answers 0 even
 * then.
 *
 * Erased flash. Empty is all zero. A card or chip of 0xff, or with one slot of 0xff, is damaged: every call on it but reset answers 2. Make new media
 * all zero first, by a reset; for a new card beside a chip in use, whose contents a reset would clear, make the card's buffer alone all zero.
 *
 * Time. CMACs are compared in all sixteen bytes, and nothing is decided before the last (securestore_tag_difference): on x86-64 a refusal was counted to
 * cost the same number of instructions wherever they differ. But AES works by table look-ups: its time may depend on key and data where the machine has a
 * data cache. */
#ifndef SECURESTORE_H
#define SECURESTORE_H

#include <stddef.h>
#include <stdint.h>

/* Version of header and library. */
#define SECURESTORE_VERSION_MAJOR 0
#define SECURESTORE_VERSION_MINOR 7
#define SECURESTORE_VERSION_PATCH 0
#define SECURESTORE_VERSION_STRING "0.7.0"

/* What the store's calls return: one of these numbers. */
typedef uint32_t securestore_status;

#define SECURESTORE_OK 0u
#define SECURESTORE_ERR_LENGTH 1u         /* card, chip, device key, IV, name, key, staging or mix buffer, or an array of sends, of a wrong length */
#define SECURESTORE_ERR_CORRUPT 2u        /* card or chip is damaged: one bad slot, or slots out of order (see Slots); see there before any reset */
#define SECURESTORE_ERR_INVALID_NAME 3u   /* bad name, prefix or key identifier; or a mix is to be stored under a name without "mix/" in front */
#define SECURESTORE_ERR_INVALID_FLAGS 4u  /* unknown bits, or replay protection without integrity */
#define SECURESTORE_ERR_DATA_SIZE 5u      /* more data than a record holds, given or declared */
#define SECURESTORE_ERR_NOT_FOUND 6u      /* the card does not hold the name, nor, where it is to be read, the chip; or no name from there on has the prefix;
                                           * or no mix has the session */
#define SECURESTORE_ERR_ALREADY_EXISTS 7u /* the old or the new flags say write once, and there is something under the name */
#define SECURESTORE_ERR_INVALID_RECORD 8u /* the stored record is not well formed */
#define SECURESTORE_ERR_FLAGS_MISMATCH 9u /* the flags differ from the stored ones */
#define SECURESTORE_ERR_NO_SPACE 10u      /* no free slot on the card or in the chip */
#define SECURESTORE_ERR_AUTHENTICATION 11u /* the record's CMAC is wrong */
#define SECURESTORE_ERR_ROLLBACK 12u      /* card and chip disagree about the name: an old, changed or exchanged card, or power lost between the writes */
#define SECURESTORE_ERR_INVALID_KEY_FILE 13u /* not a key file, or more material than one holds */
#define SECURESTORE_ERR_OFFSET 14u        /* the offset lies beyond the data */
#define SECURESTORE_ERR_TRANSFER_SIZE 19u /* a chunk past the declared size, a finalize short of it, or a handle whose sizes do not fit */
#define SECURESTORE_ERR_INVALID_MIX 20u   /* no mix: bytes that break a rule, or too many or too few; over 16 sends, a bad tag, a level or pan out of range */
#define SECURESTORE_ERR_AMBIGUOUS 21u     /* two or more mixes on the card have the session */

/* Flags of a record. */
#define SECURESTORE_WRITE_ONCE 1u
#define SECURESTORE_REQUIRE_CONFIDENTIALITY 2u
#define SECURESTORE_REQUIRE_INTEGRITY 4u
#define SECURESTORE_REQUIRE_REPLAY_PROTECTION 8u /* only together with integrity */

/* Sizes in bytes. A card is 1 to 64 slots of 584, a chip 1 to 64 slots of 82; all zero is empty. */
#define SECURESTORE_KV_SLOT_SIZE 584u
#define SECURESTORE_KV_SLOTS_MAX 64u
#define SECURESTORE_RBP_SLOT_SIZE 82u
#define SECURESTORE_RBP_SLOTS_MAX 64u
#define SECURESTORE_DEVICE_KEY_SIZE 16u
#define SECURESTORE_IV_SIZE 8u
#define SECURESTORE_BLOCK_SIZE 16u
#define SECURESTORE_NAME_MAX 64u /* a name has 1 to 64 bytes, each 0x20 to 0x7e or 0x80 to 0xff: see Names above */
#define SECURESTORE_DATA_MAX 480u
#define SECURESTORE_KEY_ID_MIN 1u
#define SECURESTORE_KEY_ID_MAX 0xfffeffffu
#define SECURESTORE_KEY_FILE_MAX 480u /* a header, then the material */
#define SECURESTORE_KEY_FILE_HEADER 36u /* where the material begins */
#define SECURESTORE_KEY_MATERIAL_MAX 444u
#define SECURESTORE_STAGING_SIZE 480u /* not a byte more or less */
#define SECURESTORE_SET_HANDLE_SIZE 88u
#define SECURESTORE_MIX_MAX 153u    /* a header, then the sends */
#define SECURESTORE_MIX_HEADER 9u   /* session number (8), count of sends (1) */
#define SECURESTORE_SEND_SIZE 9u    /* tag (1), level (4), pan (4) */
#define SECURESTORE_MIX_SENDS_MAX 16u

/* Tags of a send. */
#define SECURESTORE_SEND_MUTED 0u
#define SECURESTORE_SEND_LEVEL 1u
#define SECURESTORE_SEND_LEVEL_PAN 2u

/* Where the fields of an incremental set's handle begin. Numbers are of 4 bytes, little-endian; the handle needs no alignment. */
#define SECURESTORE_SET_HANDLE_NAME_AT 0u             /* 64 bytes: the name, then zeros */
#define SECURESTORE_SET_HANDLE_NAME_LEN_AT 64u        /* 4: the name's length, at most 64 */
#define SECURESTORE_SET_HANDLE_FLAGS_AT 68u           /* 4 */
#define SECURESTORE_SET_HANDLE_IV_AT 72u              /* 8 bytes, as given */
#define SECURESTORE_SET_HANDLE_FINAL_DATA_SIZE_AT 80u /* 4: the declared size, at most 480 */
#define SECURESTORE_SET_HANDLE_COUNT_AT 84u           /* 4: how many bytes are held, at most the declared size */

#ifdef __cplusplus
extern "C" {
#endif

/* A status as static text, for logs: its constant's name without SECURESTORE_, then its meaning. Any other number gives "unknown status". */
static inline const char *securestore_status_text(securestore_status status)
{
    switch (status) {
    case SECURESTORE_OK:
        return "OK";
    case SECURESTORE_ERR_LENGTH:
        return "ERR_LENGTH: a buffer has a wrong length";
    case SECURESTORE_ERR_CORRUPT:
        return "ERR_CORRUPT: card or chip is damaged";
    case SECURESTORE_ERR_INVALID_NAME:
        return "ERR_INVALID_NAME: bad name, prefix or key identifier";
    case SECURESTORE_ERR_INVALID_FLAGS:
        return "ERR_INVALID_FLAGS: unknown flags, or replay protection without integrity";
    case SECURESTORE_ERR_DATA_SIZE:
        return "ERR_DATA_SIZE: more data than a record holds";
    case SECURESTORE_ERR_NOT_FOUND:
        return "ERR_NOT_FOUND: no such name or session";
    case SECURESTORE_ERR_ALREADY_EXISTS:
        return "ERR_ALREADY_EXISTS: write once, and the name is in use";
    case SECURESTORE_ERR_INVALID_RECORD:
        return "ERR_INVALID_RECORD: the stored record is not well formed";
    case SECURESTORE_ERR_FLAGS_MISMATCH:
        return "ERR_FLAGS_MISMATCH: the flags differ from the stored ones";
    case SECURESTORE_ERR_NO_SPACE:
        return "ERR_NO_SPACE: no free slot on the card or in the chip";
    case SECURESTORE_ERR_AUTHENTICATION:
        return "ERR_AUTHENTICATION: the record's CMAC is wrong";
    case SECURESTORE_ERR_ROLLBACK:
        return "ERR_ROLLBACK: card and chip disagree about the name";
    case SECURESTORE_ERR_INVALID_KEY_FILE:
        return "ERR_INVALID_KEY_FILE: not a key file, or too much key material";
    case SECURESTORE_ERR_OFFSET:
        return "ERR_OFFSET: the offset lies beyond the data";
    case SECURESTORE_ERR_TRANSFER_SIZE:
        return "ERR_TRANSFER_SIZE: chunks and declared size do not fit, or the handle is broken";
    case SECURESTORE_ERR_INVALID_MIX:
        return "ERR_INVALID_MIX: not a mix, or a send out of range";
    case SECURESTORE_ERR_AMBIGUOUS:
        return "ERR_AMBIGUOUS: two or more mixes have the session";
    default:
        return "unknown status";
    }
}

/* Stores data under a name: the slot of a new name is put where the order of names has it, that of a known one is written anew where it stands. With replay
 * protection the record's CMAC goes to the chip too, so both buffers must reach their media. iv must be new for every set with confidentiality under one
 * device key.
 * Tests: 1 lengths (card, chip, key of 16, IV of 8), 2 damage, 3 name, 4 flags, 5 data over 480;
 * where the card holds the name: 8, then 7 if the old or the new flags say write once, then 9;
 * where it does not: 7 if the new flags say write once and the chip holds the name;
 * then in both cases 12 if replay protection is not asked for and the chip holds the name;
 * then 10 if the card lacks the name and has no free slot, or replay protection is asked for, the chip lacks the name and has no free slot. */
securestore_status securestore_set(uint8_t *kv, size_t kv_len, uint8_t *rbp, size_t rbp_len, const uint8_t *device_key, size_t device_key_len,
                                   const uint8_t *name, size_t name_len, uint32_t flags, const uint8_t *iv, size_t iv_len, const uint8_t *data,
                                   size_t data_len);

/* Reads a record's data from an offset: *count is the smaller of output_len and what lies behind the offset, and so many bytes are written to the
 * front of output; the rest of it is as before. Plaintext is written only after all tests.
 * Tests: 1 lengths, 2 damage, 3 name; not on the card: 12 if the chip holds the name, else 6;
 * 8; 11 where integrity is flagged; 12 where replay protection is flagged and the chip's copy is absent or differs, or where it is not flagged and the
 * chip holds the name; 14. */
securestore_status securestore_get(const uint8_t *kv, size_t kv_len, const uint8_t *rbp, size_t rbp_len, const uint8_t *device_key,
                                   size_t device_key_len, const uint8_t *name, size_t name_len, size_t offset, uint8_t *output, size_t output_len,
                                   size_t *count);

/* A record's data size and flags. Judged as a get at offset 0: the same tests in the same order, all but 14. */
securestore_status securestore_get_info(const uint8_t *kv, size_t kv_len, const uint8_t *rbp, size_t rbp_len, const uint8_t *device_key,
                                        size_t device_key_len, const uint8_t *name, size_t name_len, uint32_t *data_size, uint32_t *flags);

/* Takes the name's slot out of the card, and with replay protection the one out of the chip; the slots behind close up. If the card's record is without it, a
 * chip slot of the name is kept, and get then answers 12. No CMAC is checked: to remove a record that says replay protection frees the name in the chip,
 * whoever put the record there.
 * Tests: 1 lengths, 2 damage, 3 name, 6 not on the card, 8, 7 if the record is written once. */
securestore_status securestore_remove(uint8_t *kv, size_t kv_len, uint8_t *rbp, size_t rbp_len, const uint8_t *name, size_t name_len);

/* Clears card and chip, whatever they hold. Tests: 1 lengths, and nothing else. */
securestore_status securestore_reset(uint8_t *kv, size_t kv_len, uint8_t *rbp, size_t rbp_len);

/* The first name with the prefix from a slot on, for walking over names, which come in their order: start with start_slot 0 and go on with *next_slot while
 * the answer is 0; 6 is the end, any other number an error (after which *next_slot is 0).
 * The name goes to the front of name_buf, the rest of it is as before; *name_len is its length, *next_slot the slot after it.
 * Slots are counted, not names, whatever the prefix. Between two steps a set of a name that the card holds does no harm, nor do a new name and a remove behind
 * the name that was given last. A new name in front of that, or that name itself set again after a remove, moves the next one on, so a name would be given
 * again: go on with one more for each. A remove of it, or of a name in front of it, moves the next one back, so that would be left out: go on with one less for
 * each. Only calls that answered 0 count, those of save_key, store_mix and set_finalize too. Or start again with 0, which is always right.
 * Tests: 1 lengths (name_buf of at least 64), 2 damage, 3 prefix (0 to 64 bytes that a name may hold), 6. No record is judged. */
securestore_status securestore_iterator_next(const uint8_t *kv, size_t kv_len, const uint8_t *rbp, size_t rbp_len, const uint8_t *prefix,
                                             size_t prefix_len, size_t start_slot, uint8_t *name_buf, size_t name_buf_len, size_t *name_len,
                                             size_t *next_slot);

/* A record in chunks: see Records in chunks above. */

/* Starts an incremental set: the handle holds name, flags, IV and declared size (final_data_size), and a count of 0. All of its 88 bytes are written,
 * whatever they were, so name and iv may not lie in them; a refusal makes them all zero. An empty name, its bytes and the flags are not judged here but by
 * the finalize. iv must be new for every record with confidentiality under one device key.
 * Tests: 1 IV not of 8, 3 name over 64 bytes, 5 declared size over 480. */
securestore_status securestore_set_start(const uint8_t *name, size_t name_len, uint32_t flags, const uint8_t *iv, size_t iv_len, size_t final_data_size,
                                         uint8_t handle[SECURESTORE_SET_HANDLE_SIZE]);

/* Puts a chunk into the staging buffer, straight behind the bytes that are held, and adds its length to the handle's count; the rest of both is as
 * before. An empty chunk is done. The chunk may overlap neither the staging buffer nor the handle, nor these two each other.
 * Tests: 1 staging_len not 480; 19 handle with a name length over 64, a declared size over 480 or a count past it; 19 chunk past the declared size. */
securestore_status securestore_set_add_data(uint8_t handle[SECURESTORE_SET_HANDLE_SIZE], uint8_t *staging, size_t staging_len, const uint8_t *chunk,
                                            size_t chunk_len);

/* Stores the bytes that are held, the staging buffer's first count bytes: a set of them with the handle's name, flags and IV, on card and chip as they
 * are now, which with replay protection must both reach their media. Handle and staging buffer are read and not written.
 * Tests: 1 lengths (card, chip, key of 16, staging_len of 480); 19 handle as above; 19 count short of the declared size; then those of a set from 2 on.
 * 5 does not occur. */
securestore_status securestore_set_finalize(uint8_t *kv, size_t kv_len, uint8_t *rbp, size_t rbp_len, const uint8_t *device_key, size_t device_key_len,
                                            const uint8_t handle[SECURESTORE_SET_HANDLE_SIZE], const uint8_t *staging, size_t staging_len);

/* PSA key files. The five attributes are carried and not judged. */

/* Writes a key file to the front of key_buf, the rest of it is as before; *count is the file's length.
 * Tests: 1 key_buf under 480, 13 material over 444. */
securestore_status securestore_format_key_file(uint32_t lifetime, uint32_t key_type, uint32_t usage, uint32_t alg, uint32_t enrollment_alg,
                                               const uint8_t *material, size_t material_len, uint8_t *key_buf, size_t key_buf_len, size_t *count);

/* Stores a key file under a key's identifier, 1 to 0xfffeffff: its name is the identifier as 16 lower-case hex digits.
 * Tests: 13 material over 444, then those of a set; a bad identifier is 3. */
securestore_status securestore_save_key(uint8_t *kv, size_t kv_len, uint8_t *rbp, size_t rbp_len, const uint8_t *device_key, size_t device_key_len,
                                        uint32_t key_id, uint32_t lifetime, uint32_t key_type, uint32_t usage, uint32_t alg, uint32_t enrollment_alg,
                                        const uint8_t *material, size_t material_len, uint32_t flags, const uint8_t *iv, size_t iv_len);

/* Reads a key's file to the front of key_buf, the rest of it is as before; *count is the file's length. What is no key file is not handed out.
 * Tests: 1 lengths (key_buf of at least 480), then those of a get at offset 0; a bad identifier is 3; 13 not a key file. */
securestore_status securestore_load_key(const uint8_t *kv, size_t kv_len, const uint8_t *rbp, size_t rbp_len, const uint8_t *device_key,
                                        size_t device_key_len, uint32_t key_id, uint8_t *key_buf, size_t key_buf_len, size_t *count);

/* What a key file says: its attributes, and how many bytes of material stand behind its header, from file + SECURESTORE_KEY_FILE_HEADER on.
 * Tests: 13 for a wrong mark, another version than 0, a short header, trailing or missing bytes, or material over 444. */
securestore_status securestore_parse_key_file(const uint8_t *file, size_t file_len, uint32_t *lifetime, uint32_t *key_type, uint32_t *usage, uint32_t *alg,
                                              uint32_t *enrollment_alg, uint32_t *material_len);

/* Mixes: see Mixes above. */

/* Stores a mix, given by its bytes, under a name that begins with "mix/": a set of these bytes. With replay protection both buffers must reach their media;
 * iv must be new for every record with confidentiality under one device key.
 * Tests: 20 bytes that are no mix; 3 name without "mix/" in front; then those of a set, from 1 on. 5 does not occur. */
securestore_status securestore_store_mix(uint8_t *kv, size_t kv_len, uint8_t *rbp, size_t rbp_len, const uint8_t *device_key, size_t device_key_len,
                                         const uint8_t *name, size_t name_len, uint32_t flags, const uint8_t *iv, size_t iv_len, const uint8_t *mix,
                                         size_t mix_len);

/* Finds the mix of a session: the bytes of the one record that holds it go to the front of mix_buf, the rest of it is as before; *count is their length.
 * Tests: 1 lengths (card, chip, key of 16, mix_buf of at least 153), 2 damage; then each record whose name begins with "mix/", from slot 0 on: the first that
 * a get refuses gives that number (8, 11, 12), the first whose data are no mix 20, whichever comes first; then 21 if two or more hold the session, 6 if
 * none does. */
securestore_status securestore_find_mix(const uint8_t *kv, size_t kv_len, const uint8_t *rbp, size_t rbp_len, const uint8_t *device_key,
                                        size_t device_key_len, uint64_t session_id, uint8_t *mix_buf, size_t mix_buf_len, size_t *count);

/* The bytes of a mix, from a tag, a level and a pan for each send: they go to the front of mix_buf, the rest of it is as before; *count is their length.
 * There are as many sends as tags, 0 too. The three arrays have one length; levels[i] is looked at for tags 1 and 2, pans[i] for tag 2 alone.
 * Tests: 1 mix_buf under 153, or levels_len or pans_len not tags_len; 20 more than 16 sends, a tag over 2, or a level or pan that is looked at and lies out
 * of range. */
securestore_status securestore_encode_mix(uint64_t session_id, const uint8_t *tags, size_t tags_len, const float *levels, size_t levels_len,
                                          const float *pans, size_t pans_len, uint8_t *mix_buf, size_t mix_buf_len, size_t *count);

/* What the bytes of a mix say: its session number, the number of its sends, and so many tags, levels and pans at the fronts of the arrays, with +0 for a level
 * or pan that a send has not; the rest of the arrays is as before.
 * Tests: 1 tags_len, levels_len or pans_len under 16, however few sends there are; 20 bytes that are no mix. */
securestore_status securestore_decode_mix(const uint8_t *mix, size_t mix_len, uint64_t *session_id, uint8_t *tags, size_t tags_len, float *levels,
                                          size_t levels_len, float *pans, size_t pans_len, size_t *sends);

/* What is below has no refusal. */

/* The bits in which two CMACs differ, in any of their sixteen bytes: the or of the sixteen exclusive ors, a number of 0 to 255, which is 0 just where the
 * CMACs are equal. Each comparison of a CMAC in the calls above is this one, and here for an auditor to call. The two may overlap. */
uint32_t securestore_tag_difference(const uint8_t a[16], const uint8_t b[16]);

/* AES-128 (FIPS 197): encrypts the block in place. */
void securestore_aes128_encrypt(const uint8_t key[16], uint8_t block[16]);

/* CMAC over AES-128 (SP 800-38B) of a whole message. */
void securestore_cmac(const uint8_t key[16], const uint8_t *message, size_t message_len, uint8_t tag[16]);

/* Counter mode over AES-128 (SP 800-38A), in place; the same call decrypts. The first counter block is iv, then a 64-bit big-endian 0. */
void securestore_ctr(const uint8_t key[16], const uint8_t iv[8], uint8_t *data, size_t data_len);

/* Key derivation (SP 800-108, counter mode over CMAC): the salt is prefix and name, cut to 32 bytes in all. A record's keys have the prefixes
 * "ENC" and "AUTH". */
void securestore_derive(const uint8_t device_key[16], const uint8_t *prefix, size_t prefix_len, const uint8_t *name, size_t name_len,
                        uint8_t out[16]);

#ifdef __cplusplus
}
#endif

#endif
