/* t24_difference: each entry that there is, in its order (RULES 8.22 to 8.29). */
#include "difference.h"
#include "groups.h"

#include <string.h>

#define LINK "01103000"
#define SHORT "05103000"
#define R0 "02001000000400000003" /* regions at 1000, 1004 and 1008 hex */
#define R4 "02041000000400000006"
#define R8 "02081000000400000007"
#define P7 "0307000210000002" /* parameters in the first of them */
#define P8 "0308000010000001"
#define P256 "0300010010000001"
#define ZEROS_28 "00000000000000000000000000000000000000000000000000000000"
#define I2 "040204010203" "04" ZEROS_28 /* ID items of 4 octets */
#define I3 "040304010203" "05" ZEROS_28
#define END "00"

/* Two sheets in hex, and their list. */
struct row {
    const char *first, *second, *list;
};

static void each(const struct row *rows, size_t count)
{
    struct built first, second, list;
    size_t i;

    for (i = 0; i < count; i++) {
        label(rows[i].list, (long)i);
        read_hex(&first, rows[i].first);
        read_hex(&second, rows[i].second);
        read_hex(&list, rows[i].list);
        expect_list(&first, &second, &list);
        list.len = 0;
        expect_list(&first, &first, &list);
        expect_list(&second, &second, &list);
    }
}

void difference_links(void)
{
    static const struct row rows[] = {
        { LINK END, "01203000" END, "6101203000" },
        { LINK END, "01103100" END, "6102103100" },
        { LINK END, "01103001" END, "6104103001" },
        { LINK END, "014031FF" END, "61074031FF" },
        { "01083000" END, "01403000" END, "6101403000" },
        { SHORT END, "05103100" END, "6502103100" },
        { SHORT END, "05103001" END, "6504103001" },
        { SHORT END, "0510FFFF" END, "650610FFFF" },
        { LINK END, SHORT END, "4155103000" },
        { SHORT END, LINK END, "4551103000" },
        { "01400102" END, "05100304" END, "4155100304" },
        { SHORT END, "01080000" END, "4551080000" },
        { LINK R0 END, SHORT R0 END, "4155103000" },
        { SHORT R0 P7 I2 "0602" "0702" END, LINK R0 P7 I2 "0602" "0702" END,
          "4551103000" }
    };

    each(rows, sizeof rows / sizeof rows[0]);
}

void difference_regions(void)
{
    static const struct row rows[] = {
        { LINK R0 END, LINK "02001000000500000003" END,
          "6202001000000500000003" },
        { LINK R0 END, LINK "02001000000400000001" END,
          "6204001000000400000001" },
        { LINK R0 END, LINK "02001000000401000000" END,
          "6206001000000401000000" },
        { LINK R0 END, LINK END, "4200100000" },
        { LINK END, LINK R0 END, "52001000000400000003" },
        { LINK R4 END, LINK R0 R4 R8 END,
          "52001000000400000003" "52081000000400000007" },
        { LINK R0 R4 R8 END, LINK R4 END, "4200100000" "4208100000" },
        { LINK R0 R8 END, LINK R0 R4 R8 END, "52041000000400000006" },
        { LINK R0 R4 R8 END, LINK R0 R8 END, "4204100000" },
        { LINK R0 END, LINK R4 END, "4200100000" "52041000000400000006" },
        { LINK R4 END, LINK R0 END, "52001000000400000003" "4204100000" },
        { LINK R0 R4 END, LINK R0 "02041000000400000002" END,
          "6204041000000400000002" },
        { LINK "02000000000100000003" END, LINK "02000000000000010003" END,
          "6202000000000000010003" }
    };

    each(rows, sizeof rows / sizeof rows[0]);
}

/* Starts and numbers are numbers, and their low octet comes first. */
void difference_order(void)
{
    static const struct row rows[] = {
        { LINK "02FF0000000100000003" END, LINK "02000100000100000003" END,
          "42FF000000" "52000100000100000003" },
        { LINK "02000100000100000003" END, LINK "02FF0000000100000003" END,
          "52FF0000000100000003" "4200010000" },
        { LINK "02FFFFFF000100000003" END, LINK "02000000010100000003" END,
          "42FFFFFF00" "52000000010100000003" },
        { LINK "02FFFFFFFF0100000003" END, LINK "02000000800100000003" END,
          "52000000800100000003" "42FFFFFFFF" },
        { LINK R0 P8 END, LINK R0 P256 END, "430800" "5300010010000001" },
        { LINK R0 P256 END, LINK R0 P8 END, "5308000010000001" "430001" },
        { LINK R0 "03FFFF0010000001" END, LINK R0 "0300800010000001" END,
          "5300800010000001" "43FFFF" },
        { LINK "04FF0401020304" ZEROS_28 END, LINK "04800401020304" ZEROS_28 END,
          "54800401020304" ZEROS_28 "44FF" },
        { LINK "04000401020304" ZEROS_28 END, LINK "04800401020304" ZEROS_28 END,
          "4400" "54800401020304" ZEROS_28 }
    };

    each(rows, sizeof rows / sizeof rows[0]);
}

void difference_parameters(void)
{
    static const struct row rows[] = {
        { LINK R0 P7 END, LINK R0 "0307000110000002" END,
          "63020700" "0110000002" },
        { LINK R0 P7 END, LINK R0 "0307000210000001" END,
          "63040700" "0210000001" },
        { LINK R0 P7 END, LINK R0 "0307000010000004" END,
          "63060700" "0010000004" },
        { LINK R0 P7 END, LINK R0 END, "430700" },
        { LINK R0 END, LINK R0 P7 END, "5307000210000002" },
        { LINK R0 P7 P8 END, LINK R0 P8 P256 END,
          "430700" "5300010010000001" },
        { LINK R0 P7 P256 END, LINK R0 P7 P8 P256 END, "5308000010000001" },
        { LINK R0 P7 P8 P256 END, LINK R0 P7 P256 END, "430800" },
        { LINK R0 R4 "0300000310000002" END, LINK R0 R4 "0300000410000002" END,
          "63020000" "0410000002" }
    };

    each(rows, sizeof rows / sizeof rows[0]);
}

void difference_items(void)
{
    static const struct row rows[] = {
        { LINK I2 END, LINK "040204010203" "05" ZEROS_28 END,
          "6404" "0204010203" "05" ZEROS_28 },
        { LINK I2 END, LINK "040204FF0203" "04" ZEROS_28 END,
          "6404" "0204FF0203" "04" ZEROS_28 },
        { LINK I2 END, LINK "040203010203" "00" ZEROS_28 END,
          "6406" "0203010203" "00" ZEROS_28 },
        { LINK "040203010203" "00" ZEROS_28 END,
          LINK "040204010203" "00" ZEROS_28 END,
          "6402" "0204010203" "00" ZEROS_28 },
        { LINK "040220010203" "00" ZEROS_28 END,
          LINK "040203010203" "00" ZEROS_28 END,
          "6402" "0203010203" "00" ZEROS_28 },
        { LINK I2 END, LINK END, "4402" },
        { LINK END, LINK I2 END, "540204010203" "04" ZEROS_28 },
        { LINK I2 END, LINK I3 END, "4402" "540304010203" "05" ZEROS_28 },
        { LINK I3 END, LINK I2 END, "540204010203" "04" ZEROS_28 "4403" },
        { LINK I2 I3 END, LINK I3 END, "4402" },
        { LINK I2 END, LINK I2 I3 END, "540304010203" "05" ZEROS_28 }
    };

    each(rows, sizeof rows / sizeof rows[0]);
}

/* The last of the 32 octets, and each of those before it. */
void difference_item_octets(void)
{
    struct built first, second, list;
    unsigned octet;

    for (octet = 0; octet < 32; octet++) {
        label("octet", (long)octet);
        first.len = second.len = list.len = 0;
        add_link(&first, 16);
        add_item(&first, 0x80, 32);
        add_end(&first);
        second = first;
        second.octets[4 + 3 + octet] ^= 0x80;
        add_octet(&list, 0x64);
        add_octet(&list, 0x04);
        memcpy(list.octets + 2, second.octets + 5, 34);
        list.len = 36;
        expect_list(&first, &second, &list);
    }
}

void difference_lasts(void)
{
    static const struct row rows[] = {
        { LINK "0602" END, LINK "0600" END, "660100" },
        { LINK "0600" END, LINK "0603" END, "660103" },
        { LINK "0602" END, LINK END, "46" },
        { LINK END, LINK "0602" END, "5602" },
        { LINK END, LINK "0600" END, "5600" },
        { LINK "0701" END, LINK "0702" END, "670102" },
        { LINK "0702" END, LINK END, "47" },
        { LINK END, LINK "0701" END, "5701" },
        { LINK "0602" END, LINK "0702" END, "46" "5702" },
        { LINK "0702" END, LINK "0602" END, "5602" "47" },
        { LINK "06010701" END, LINK END, "46" "47" },
        { LINK END, LINK "06010702" END, "5601" "5702" },
        { LINK "06010701" END, LINK "06020702" END, "660102" "670102" },
        { LINK "06010702" END, LINK "0702" END, "46" }
    };

    each(rows, sizeof rows / sizeof rows[0]);
}

void difference_all(void)
{
    static const struct row rows[] = {
        { LINK R0 R4 P7 I2 "0602" END,
          SHORT "02001000000400000001" "02081000000400000006"
          "0300000010000001" "0307000010000002" "0600" "0701" END,
          "41" "55103000" "6204001000000400000001" "4204100000"
          "52081000000400000006" "5300000010000001" "63020700" "0010000002"
          "4402" "660100" "5701" },
        { SHORT "02001000000400000001" "02081000000400000006"
          "0300000010000001" "0307000010000002" "0600" "0701" END,
          LINK R0 R4 P7 I2 "0602" END,
          "45" "51103000" "6204001000000400000003" "52041000000400000006"
          "4208100000" "430000" "63020700" "0210000002"
          "540204010203" "04" ZEROS_28 "660102" "47" },
        { LINK R0 P7 I2 "06010702" END, LINK END,
          "4200100000" "430700" "4402" "46" "47" },
        { LINK END, LINK R0 P7 I2 "06010702" END,
          "52001000000400000003" "5307000210000002"
          "540204010203" "04" ZEROS_28 "5601" "5702" },
        { LINK R0 "06010702" END, LINK I2 "06010702" END,
          "4200100000" "540204010203" "04" ZEROS_28 },
        { LINK I2 "0702" END, LINK R0 P7 "0701" END,
          "52001000000400000003" "5307000210000002" "4402" "670101" }
    };

    each(rows, sizeof rows / sizeof rows[0]);
}
