/* What changed between two sheets in words: each entry. */
#include "difference.h"
#include "groups.h"
#include "place.h"
#include "said.h"

#include "type24_words.h"

#define FIRST                                                                   \
    "01103000 02001000000400000003 02041000000400000006 0307000210000002"       \
    "040204010203040000000000000000000000000000000000000000000000000000"        \
    "0000" "0602 0701 00"
#define ZEROS_28 "00000000000000000000000000000000000000000000000000000000"
#define ZEROS_31 ZEROS_28 "000000"
#define FULL "4142434445464748494A4B4C4D4E4F505152535455565758595A5B5C5D5E5F60"

/* An entry, and its words with FIRST as the first sheet. */
static const struct {
    const char *entry, *words;
} entries[] = {
    { "41", "link record: gone" },
    { "51103000", "link record: new, L 16, version 30 hex, profile 0" },
    { "51400AFF", "link record: new, L 64, version A hex, profile FF hex" },
    { "6101203000", "link record: L 16 -> 32" },
    { "6102100900", "link record: version 30 hex -> 9" },
    { "6104103010", "link record: profile 0 -> 10 hex" },
    { "610708317F",
      "link record: L 16 -> 8; version 30 hex -> 31 hex; profile 0 -> 7F hex" },
    { "45", "short link record: gone" },
    { "55103000", "short link record: new, L 16, version 30 hex, profile 0" },
    { "4204100000", "region 00001004: gone" },
    { "42FFFFFFFF", "region FFFFFFFF: gone" },
    { "52081000000100000000", "region 00001008: new, 1 octet, rights none" },
    { "52081000000001000006",
      "region 00001008: new, 256 octets, rights write out of step, write in "
      "step" },
    { "52000001000000010007",
      "region 00010000: new, 65536 octets, rights read, write out of step, "
      "write in step" },
    { "6204001000000400000001",
      "region 00001000: rights read, write out of step -> read" },
    { "6204041000000400000005",
      "region 00001004: rights write out of step, write in step -> read, write "
      "in step" },
    { "6204041000000400000000",
      "region 00001004: rights write out of step, write in step -> none" },
    { "6202041000000500000006", "region 00001004: length 4 -> 5" },
    { "6206001000000100010004",
      "region 00001000: length 4 -> 65537; rights read, write out of step -> "
      "write in step" },
    { "430700", "parameter 7: gone" },
    { "43FFFF", "parameter 65535: gone" },
    { "5300010010000001", "parameter 256: new, 1 octet at 00001000" },
    { "53000000000000" "38", "parameter 0: new, 56 octets at 00000000" },
    { "6302070000100000" "02", "parameter 7: address 00001002 -> 00001000" },
    { "6304070002100000" "01", "parameter 7: size 2 -> 1" },
    { "6306070001100000" "03",
      "parameter 7: address 00001002 -> 00001001; size 2 -> 3" },
    { "4402", "ID item 2: gone" },
    { "4480", "ID item 80 hex: gone" },
    { "540204" "01020304" ZEROS_28, "ID item 2: new, 4 octets" },
    { "540A01" "01" ZEROS_31, "ID item A hex: new, 1 octet" },
    { "54FF20" FULL, "ID item FF hex: new, 32 octets" },
    { "64020205" "01020304" ZEROS_28, "ID item 2: length 4 -> 5" },
    { "64040204" "01020305" ZEROS_28, "ID item 2: octets 01020304 -> 01020305" },
    { "64060201" "FF000000" ZEROS_28,
      "ID item 2: length 4 -> 1; octets 01020304 -> FF" },
    { "64060220" FULL, "ID item 2: length 4 -> 32; octets 01020304 -> " FULL },
    { "46", "tolerance record: gone" },
    { "5603", "tolerance record: new, lost cycles 3" },
    { "660100", "tolerance record: lost cycles 2 -> 0" },
    { "47", "rule release record: gone" },
    { "5702", "rule release record: new, rule release 2" },
    { "670102", "rule release record: rule release 1 -> 2" }
};

/* The words in every room that is too small for them. */
static void in_rooms(const struct built *first, const uint8_t *list, size_t len,
                     const char *words)
{
    const uint8_t *sheet = place(SHEET, first->octets, first->len, 1);
    size_t room;

    for (room = 0; room <= strlen(words); room++) {
        uint8_t *at = place(REPLY, given(REPLY), room, 1);

        check(t24_entry_words(sheet, first->len, list, len, 0, (char *)at, room)
              == strlen(words), "length in a smaller room");
        check(room == 0 || (strlen((char *)at) == room - 1
                            && memcmp(at, words, room - 1) == 0),
              "words in a smaller room");
    }
}

void words_entries(void)
{
    struct built first, entry;
    size_t i;

    read_hex(&first, FIRST);
    check(t24_sheet(first.octets, first.len) == T24_DONE, "the first sheet");
    for (i = 0; i < sizeof entries / sizeof entries[0]; i++) {
        const uint8_t *list;

        label(entries[i].entry, (long)i);
        read_hex(&entry, entries[i].entry);
        list = place(LIST, entry.octets, entry.len, 1);
        same(t24_entry_words(place(SHEET, first.octets, first.len, 1), first.len,
                             list, entry.len, 0, text, sizeof text),
             entries[i].words);
        in_rooms(&first, list, entry.len, entries[i].words);
    }
}

/* A list that is not this sheet's, and octets that are no list. */
static const struct {
    const char *sheet, *list, *words;
} others[] = {
    { "0110300000", "6204001000000400000001",
      "region 00001000: rights -> read; but the first sheet has no such "
      "record" },
    { "", "6206001000000400000001",
      "region 00001000: length -> 4; rights -> read; but the first sheet "
      "has no such record" },
    { FIRST, "6502103100",
      "short link record: version -> 31 hex; but the first sheet has no "
      "such record" },
    { "0510300000", "6502103100",
      "short link record: version 30 hex -> 31 hex" },
    { FIRST, "63020800" "0010000002",
      "parameter 8: address -> 00001000; but the first sheet has no such "
      "record" },
    { FIRST, "6200001000000400000001",
      "region 00001000: changed, but no bit says what" },
    { FIRST, "62F9001000000400000001",
      "region 00001000: changed, but no bit says what" },
    { FIRST, "660202", "tolerance record: changed, but no bit says what" },
    { "0110300002001000", "6204001000000400000001",
      "region 00001000: rights -> read; but the first sheet has no such "
      "record" },
    { FIRST, "", "no entry at octet 0: the list ends before it" },
    { FIRST, "40",
      "no entry at octet 0: 40 is none of 41 to 47, 51 to 57 and 61 to 67" },
    { FIRST, "48",
      "no entry at octet 0: 48 is none of 41 to 47, 51 to 57 and 61 to 67" },
    { FIRST, "71",
      "no entry at octet 0: 71 is none of 41 to 47, 51 to 57 and 61 to 67" },
    { FIRST, "01103000",
      "no entry at octet 0: 01 is none of 41 to 47, 51 to 57 and 61 to 67" },
    { FIRST, "42041000",
      "no entry at octet 0: 1 of its 5 octets is missing" },
    { FIRST, "62", "no entry at octet 0: 10 of its 11 octets are missing" }
};

void words_entries_of_others(void)
{
    struct built first, list;
    size_t i;

    for (i = 0; i < sizeof others / sizeof others[0]; i++) {
        label(others[i].list, (long)i);
        read_hex(&first, others[i].sheet);
        read_hex(&list, others[i].list);
        same(t24_entry_words(place(SHEET, first.octets, first.len, 1), first.len,
                             place(LIST, list.octets, list.len, 1), list.len, 0,
                             text, sizeof text), others[i].words);
    }
    label("a place far behind the list", 0);
    same(t24_entry_words(NULL, 0, NULL, 0, 0xFFFFFFFFu, text, sizeof text),
         "no entry at octet 4294967295: the list ends before it");
}
