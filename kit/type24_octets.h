/*
 * type24_octets.h - lengths, and what stands at which octet of sheet, state
 * record, command, reply and trace.  Comes with type24.h, and has nothing but
 * constants.
 *
 * RULES is the page RULES.md, and its sections are named here.  Numbers of more
 * than one octet stand low octet first; places count from 0.
 */
#ifndef TYPE24_OCTETS_H
#define TYPE24_OCTETS_H

/* Lengths, in octets. */
#define T24_L8 8 /* the five PDU lengths L */
#define T24_L16 16
#define T24_L32 32
#define T24_L48 48
#define T24_L64 64
#define T24_L_MAX 64         /* no command or reply is longer */
#define T24_STATE_LEN 11     /* every state record */
#define T24_OLD_STATE_LEN 10 /* one of release 1, for t24_turn alone */
#define T24_SHEET_MAX 2048   /* no accepted sheet is longer */
#define T24_MEMORY_MAX 65536 /* no accepted sheet describes more memory */
#define T24_TRACE_MAX 1073741823 /* no replayed trace is longer */

/*
 * Sheet (RULES 3): an octet of kind and a body.  First one link record, of the
 * enhanced type or of the short type, then regions, parameters and ID items, then
 * at most one tolerance record and at most one rule release record, at last the
 * end record.
 */
#define T24_RECORD_END 0x00
#define T24_RECORD_LINK 0x01      /* L (1), version (1), profile (1) */
#define T24_RECORD_REGION 0x02    /* start (4), length (4), rights (1) */
#define T24_RECORD_PARAMETER 0x03 /* number (2), address (4), size (1) */
#define T24_RECORD_ID 0x04        /* code (1), length (1), 32 octets */
#define T24_RECORD_SHORT_LINK 0x05 /* as the link record; L is 16 */
#define T24_RECORD_TOLERANCE 0x06 /* lost cycles in a row (1) */
#define T24_RECORD_RULE_RELEASE 0x07 /* release of the drive rules (1) */
#define T24_RECORD_END_LEN 1 /* octets of a record, its kind among them */
#define T24_RECORD_LINK_LEN 4
#define T24_RECORD_REGION_LEN 10
#define T24_RECORD_PARAMETER_LEN 8
#define T24_RECORD_ID_LEN 35
#define T24_RECORD_SHORT_LINK_LEN 4
#define T24_RECORD_TOLERANCE_LEN 2
#define T24_RECORD_RULE_RELEASE_LEN 2

#define T24_SHEET_AT_L 1 /* of the sheet: its first is a link record */
#define T24_SHEET_AT_VERSION 2
#define T24_SHEET_AT_PROFILE 3
#define T24_REGION_AT_START 1  /* from here on places in the record */
#define T24_REGION_AT_LENGTH 5 /* at least 1; start + length at most 2^32 */
#define T24_REGION_AT_RIGHTS 9 /* only the three bits below */
#define T24_PARAMETER_AT_NUMBER 1
#define T24_PARAMETER_AT_ADDRESS 3
#define T24_PARAMETER_AT_SIZE 7 /* 1 to T24_PARAMETER_SIZE_MAX */
#define T24_ITEM_AT_CODE 1
#define T24_ITEM_AT_LENGTH 2 /* 1 to T24_ITEM_OCTETS */
#define T24_ITEM_AT_OCTETS 3 /* those past the length are zero */
#define T24_TOLERANCE_AT_COUNT 1 /* 0 to T24_TOLERANCE_MAX */
#define T24_RULE_RELEASE_AT_NUMBER 1 /* 1 to T24_RULE_RELEASE_MAX */

#define T24_RIGHT_READ 0x01 /* rights of a region (RULES 4.3) */
#define T24_RIGHT_WRITE_ASYNC 0x02
#define T24_RIGHT_WRITE_SYNC 0x04

#define T24_REGIONS_MAX 32
#define T24_PARAMETERS_MAX 64
#define T24_ITEMS_MAX 32
#define T24_PARAMETER_SIZE_MAX 56
#define T24_ITEM_OCTETS 32
#define T24_TOLERANCE_MAX 3
#define T24_RULE_RELEASE_MAX 2 /* 2: reserved octets of a command must be zero */

/* State record (RULES 5.3; RULES 5.1): eleven octets.  One of release 1 has the
 * first ten of them, and another kind. */
#define T24_AT_KIND 0 /* always T24_STATE_KIND */
#define T24_AT_LINK 1
#define T24_AT_L 2
#define T24_AT_DUAL 3     /* dual transfer, 0 or 1 */
#define T24_AT_COM_TIME 4 /* nonzero exactly in the two connected links */
#define T24_AT_MN_KNOWN 5
#define T24_AT_LAST_MN 6
#define T24_AT_RSN 7
#define T24_AT_COMMAND_ALARM 8       /* latched: 0, 8, 9, 10 or 12 */
#define T24_AT_COMMUNICATION_ALARM 9 /* latched: 0 or 12 */
#define T24_AT_FAILURES 10 /* lost cycles in a row; at most the sheet's */
#define T24_STATE_KIND 0x12
#define T24_OLD_STATE_KIND 0x11 /* of release 1, for t24_turn alone */
#define T24_LINK_DISABLED 0
#define T24_LINK_DISCONNECTED 1
#define T24_LINK_ASYNC 2
#define T24_LINK_SYNC 3

/*
 * Trace (RULES 9): records of a kind, a command and its reply, so of
 * 1 + 2 L octets.
 */
#define T24_TRACE_8 0x21
#define T24_TRACE_16 0x22
#define T24_TRACE_32 0x23
#define T24_TRACE_48 0x24
#define T24_TRACE_64 0x25
#define T24_TRACE_AT_COMMAND 1 /* the reply stands L octets behind it */

/*
 * Every command of the enhanced type has L octets (RULES 2.3); type24_short.h has
 * those of the short type:
 *   0     the code
 *   1     WDT: low half MN, high half SN.  In SyncConnected MN has to be one
 *         more, modulo 16, than in the command before, and SN has to be RSN of
 *         the reply before (RULES 6.4), but for the first behind the one that
 *         entered SyncConnected, which may have any; t24_next_wdt() makes WDT
 *   2     control: T24_IDENTITY, which the reply has again, so that a master
 *         that repeats a command can tell the replies apart; other bits are
 *         reserved
 *   3     control, reserved
 *   4..   the fields named with the command; others are reserved, and so are
 *         those behind written data
 * Reserved octets are not looked at under release 1 of the drive rules.  Under
 * release 2 of the drive rules they must be zero, else alarm 9 (RULES 7.24);
 * t24_rule_release() tells which of the two a sheet asks for.
 */
#define T24_COMMAND_AT_CODE 0
#define T24_COMMAND_AT_WDT 1
#define T24_COMMAND_AT_CONTROL 2
#define T24_IDENTITY 0xC0 /* bits 6 and 7 of octet 2, in command and reply */

/*
 * Every reply of the enhanced type has L octets (RULES 6.2 and 6.3):
 *   0     the code again
 *   1     RWDT: low half the command's MN, high half RSN, 0 to 15; 0 where the
 *         link afterwards is not SyncConnected
 *   2     T24_STATUS_ALWAYS, T24_STATUS_LATCHED while a latch is not 0,
 *         T24_STATUS_TOLERATED if the cycle was lost and that is tolerated, and
 *         the command's T24_IDENTITY, whether it was executed or not
 *   3     low half this command's alarm, high half the communication latch
 *   4..   the body named with the command; zeros if it was refused or not
 *         executed, and zero wherever nothing is named
 */
#define T24_REPLY_AT_CODE 0
#define T24_REPLY_AT_RWDT 1
#define T24_REPLY_AT_STATUS 2
#define T24_STATUS_LATCHED 0x01 /* of octet 2 */
#define T24_STATUS_TOLERATED 0x02
#define T24_STATUS_ALWAYS 0x04

/*
 * Commands (RULES 7).  Checked in this order: a code that is not here
 * gives alarm 8, a link that is not named with it alarm 12, the first wrong
 * field, by the order of octets, alarm 9, then under release 2 of the drive rules
 * the first reserved octet that is not zero alarm 9, a span without the right
 * alarm 10.  For alarm 9 the place of t24_exchange's answer is the constant of
 * that field, as "place" says below, or that reserved octet; for alarm 10 it
 * counts in the span (RULES 8.11).
 *
 * NOP: links 1, 2 and 3.  No field, no effect; body zeros.
 */
#define T24_NOP 0x00

/*
 * PRM_RD, PRM_WR: links 2 and 3; the whole span needs the right to read, or
 * that to write in this link.
 *   4-5   number of a parameter of the sheet; place 4
 *   6     its size, 1 to 56, and at most L - 8; place 6
 *   8..   PRM_WR: size octets to write
 * Body: 4 to 6 again; from 8 on the octets read or written.
 */
#define T24_PRM_RD 0x01
#define T24_PRM_WR 0x02
#define T24_PRM_AT_NUMBER 4
#define T24_PRM_AT_SIZE 6
#define T24_PRM_AT_DATA 8

/*
 * ID_RD: links 2 and 3.
 *   4     code of an ID item of the sheet; place 4
 *   5     offset, the item's first octet to read; not checked alone
 *   6-7   size, 1 to L - 8; offset + size at most the item's length; place 6
 * Body: 4 to 7 again; from 8 on the octets read.
 */
#define T24_ID_RD 0x03
#define T24_ID_AT_CODE 4
#define T24_ID_AT_OFFSET 5
#define T24_ID_AT_SIZE 6
#define T24_ID_AT_DATA 8

/*
 * ALM_RD: links 2 and 3; L at least 16, else place 0.  ALM_CLR: links 2 and 3;
 * any L.
 *   4-5   mode, 0; place 4, whichever of the two is wrong
 * ALM_CLR makes both latches 0 (RULES 6.6); body zeros.
 * Body of ALM_RD: at 8 the command latch, at 9 the communication latch, both
 * as they were before this command.
 */
#define T24_ALM_RD 0x05
#define T24_ALM_CLR 0x06
#define T24_ALM_AT_MODE 4
#define T24_ALM_AT_COMMAND 8
#define T24_ALM_AT_COMMUNICATION 9

/*
 * SYNC_SET: link 2.  No field; the link becomes 3, without dual transfer; body
 * zeros.
 */
#define T24_SYNC_SET 0x0D

/*
 * CONNECT: link 1.
 *   4     version of the sheet; place 4
 *   5     com_mod: 0, T24_COM_SYNC, or T24_COM_SYNC + T24_COM_DUAL; place 5
 *   6     com_time, 1 to 255; with T24_COM_DUAL at least 2; place 6
 *   7     profile of the sheet; place 7
 * Body: 4 to 7 again.  The link becomes 3 with T24_COM_SYNC, else 2.
 */
#define T24_CONNECT 0x0E
#define T24_CONNECT_AT_VERSION 4
#define T24_CONNECT_AT_COM_MOD 5
#define T24_CONNECT_AT_COM_TIME 6
#define T24_CONNECT_AT_PROFILE 7
#define T24_COM_SYNC 0x02
#define T24_COM_DUAL 0x04

/*
 * DISCONNECT: links 1, 2 and 3.  No field; the link becomes 1, the latches
 * stay; body zeros.
 */
#define T24_DISCONNECT 0x0F

/*
 * MEM_RD, MEM_WR: links 2 and 3; rights as for PRM_RD and PRM_WR.  At L 8 they
 * get alarm 9 at the count at the latest, for there is no octet of data.
 *   5     element: T24_ELEMENT_1, T24_ELEMENT_2 or T24_ELEMENT_4; place 5
 *   6-7   count of elements; n = count times 1, 2 or 4 is 1 to L - 12; place 6
 *   8-11  address of the first octet; all n octets lie in regions; place 8
 *   12..  MEM_WR: n octets to write
 * Body: 5 to 11 again; from 12 on the n octets read or written.
 */
#define T24_MEM_RD 0x1D
#define T24_MEM_WR 0x1E
#define T24_MEM_AT_ELEMENT 5
#define T24_MEM_AT_COUNT 6
#define T24_MEM_AT_ADDRESS 8
#define T24_MEM_AT_DATA 12
#define T24_ELEMENT_1 0x11 /* low half 1; high half 1: elements of 1 octet */
#define T24_ELEMENT_2 0x21 /* high half 2: elements of 2 octets */
#define T24_ELEMENT_4 0x31 /* high half 3: elements of 4 octets */

#endif
