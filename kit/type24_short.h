/*
 * type24_short.h - the short type, which older drives speak: what stands at which
 * octet of its commands and replies; and where an octet stands by a sheet, which
 * may be of either type.  Comes with type24.h.
 *
 * A sheet that begins with T24_RECORD_SHORT_LINK selects the short type, of L 16
 * (RULES 7.14).  Links, watchdog, rights, latches and alarms are those of the
 * enhanced type, and so are its codes, but MEM_RD and MEM_WR are unknown here.  A
 * place that is the same number in both types has one constant, in
 * type24_octets.h.
 */
#ifndef TYPE24_SHORT_H
#define TYPE24_SHORT_H

#include <stddef.h>
#include <stdint.h>

#include "type24_octets.h"

/*
 * Every command of the short type has 16 octets (RULES 7.15):
 *   0     the code, T24_COMMAND_AT_CODE
 *   1-3   reserved: there is no identity
 *   4-14  the fields named with the command; others are reserved, and so are
 *         those behind written data
 *   15    WDT: low half MN, high half SN; t24_put_wdt() puts it there
 * Reserved octets are not looked at under release 1 of the drive rules, and must
 * be zero under release 2 of the drive rules (RULES 7.24).
 */
#define T24_SHORT_COMMAND_AT_WDT 15

/*
 * Every reply of the short type has 16 octets (RULES 7.15 and 7.16):
 *   0     the code again, T24_REPLY_AT_CODE
 *   1     this command's alarm; t24_reply_alarm() tells it
 *   2     T24_STATUS_ALWAYS, T24_STATUS_LATCHED while a latch is not 0, and
 *         T24_STATUS_TOLERATED if the cycle was lost and that is tolerated
 *   3     low half 0, high half the communication latch
 *   4-14  the body named with the command; zeros if it was refused or not
 *         executed, and zero wherever nothing is named
 *   15    RWDT: low half the command's MN, high half RSN; 0 where the link
 *         afterwards is not SyncConnected
 */
#define T24_SHORT_REPLY_AT_ALARM 1
#define T24_SHORT_REPLY_AT_STATUS 2
#define T24_SHORT_REPLY_AT_RWDT 15

/*
 * The commands, with their links and places as in the enhanced type (RULES 7.17
 * and 7.18).
 *
 * PRM_RD, PRM_WR: 4-5 number and 6 size as there, but the size is at most
 * T24_SHORT_DATA_MAX; 7.. PRM_WR: size octets to write.
 * Body: 4 to 6 again; from 7 on the octets read or written.
 */
#define T24_SHORT_PRM_AT_DATA 7
#define T24_SHORT_DATA_MAX 8

/*
 * ID_RD: 4 code and 5 offset as there; 6 size, one octet, 1 to
 * T24_SHORT_DATA_MAX, offset + size at most the item's length.
 * Body: 4 to 6 again; from 7 on the octets read.
 */
#define T24_SHORT_ID_AT_DATA 7

/*
 * ALM_RD, ALM_CLR: 4 mode, one octet, 0; octet 5 is reserved.
 * Body of ALM_RD: at 4 the mode, at 5 the command latch, at 6 the communication
 * latch, both as they were before this command.
 */
#define T24_SHORT_ALM_AT_COMMAND 5
#define T24_SHORT_ALM_AT_COMMUNICATION 6

/*
 * CONNECT: 4 version, 5 com_mod and 6 com_time as there.  There is no profile, so
 * that none is checked; body: 4 to 6 again.
 * NOP, SYNC_SET and DISCONNECT have no field and no body here either.
 */

/*
 * Whether a valid sheet selects the short type, by its first octet, which alone
 * is read.  Every function that reads a command or a reply, or writes to one,
 * takes the sheet first and asks this, so that a host need not.
 */
static inline int t24_is_short(const uint8_t *sheet)
{
    return sheet[0] == T24_RECORD_SHORT_LINK;
}

/* Where WDT stands in a command under this sheet, and RWDT in a reply. */
static inline size_t t24_wdt_at(const uint8_t *sheet)
{
    return t24_is_short(sheet) ? T24_SHORT_COMMAND_AT_WDT : T24_COMMAND_AT_WDT;
}

static inline size_t t24_rwdt_at(const uint8_t *sheet)
{
    return t24_is_short(sheet) ? T24_SHORT_REPLY_AT_RWDT : T24_REPLY_AT_RWDT;
}

/* Where the two octets of status begin in a reply. */
static inline size_t t24_status_at(const uint8_t *sheet)
{
    return t24_is_short(sheet) ? T24_SHORT_REPLY_AT_STATUS
                               : T24_REPLY_AT_STATUS;
}

/* Where the data of PRM_RD and PRM_WR begins, in command and reply. */
static inline size_t t24_prm_data_at(const uint8_t *sheet)
{
    return t24_is_short(sheet) ? T24_SHORT_PRM_AT_DATA : T24_PRM_AT_DATA;
}

/* Where the data of ID_RD begins in its reply. */
static inline size_t t24_id_data_at(const uint8_t *sheet)
{
    return t24_is_short(sheet) ? T24_SHORT_ID_AT_DATA : T24_ID_AT_DATA;
}

/* Where the two latches stand in a reply to ALM_RD. */
static inline size_t t24_alm_command_at(const uint8_t *sheet)
{
    return t24_is_short(sheet) ? T24_SHORT_ALM_AT_COMMAND : T24_ALM_AT_COMMAND;
}

static inline size_t t24_alm_communication_at(const uint8_t *sheet)
{
    return t24_is_short(sheet) ? T24_SHORT_ALM_AT_COMMUNICATION
                               : T24_ALM_AT_COMMUNICATION;
}

#endif
