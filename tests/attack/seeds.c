/*
 * The seeds, written as attack.c reads them: width, height, picture, then calls. The calls, in hex: 00 fresh map, 01
 * count, 02 numbers, 03 walk (23 repaired), 04 write (24 overlapping), 05 read (25 repaired, 65 closed too), 06 paint
 * (26 with a head put in front, 66 with its highest bytes first), 07 run (27 repaired), 43 and 47 one step of either (63
 * and 67 repaired), at a place that follows; 08 more where buffers begin at a page's start, 10 more where size and lengths
 * are odd, 80 more where the record is untrue, by a byte that follows. A chunk, feed, run or symbol stands behind its
 * length.
 */
#include <string.h>

#include "inputs.h"

#define SIXTEEN "000102030405060708090A0B0C0D0E0F"
#define FILLED(first) first "FF 0F " SIXTEEN /* 256 blocks of 16 colours */

/* a symbol of every code, 3 rows by 4 pixels, behind its head; 32 times 255 rows of background; and a symbol of 65,535
 * rows, row 32,771 with a pixel */
#define SYMBOL "0300 0400 0000 040A 0101 0202 0707 0101 0901 0408 0303 010203 00 0500"
#define HIGH_SYMBOL "0003 0004 0010 040A 0101 0202 0708 0101 0901 0408 0303 010203 FF 0500"
#define EIGHT(same) same same same same same same same same
#define ROWS EIGHT("09FF 09FF 09FF 09FF")
#define HIGHEST "FFFF01000000" ROWS ROWS ROWS ROWS "0983 0406 0201 0707" ROWS ROWS ROWS ROWS "097B 0500"

/* three rows of 96, 71 and 35 colours */
#define COPIES "0300 6000 0000 0464 0360" SIXTEEN SIXTEEN SIXTEEN SIXTEEN SIXTEEN SIXTEEN "044C 0347" SIXTEEN SIXTEEN \
    SIXTEEN SIXTEEN "00010203040506 00 0428 0323" SIXTEEN SIXTEEN "000102 00 0500"

/* a block of colour 5, behind its length; 264 chunks that keep a block, of 6 bytes each with their lengths */
#define FIVE "06E10000066005"
#define KEPT64 EIGHT(EIGHT("05E100000500"))
#define KEPT264 KEPT64 KEPT64 KEPT64 KEPT64 EIGHT("05E100000500")

/* behind their lengths, for two blocks: both of colour 5, one of colour 9 and the other kept, the first copied to the
 * second, both kept */
#define FIVES "06E10000066105"
#define NINE "07E1000007600900"
#define COPIED "06E10000060020"
#define KEPT "05E100000501"

/* behind its length, for 4,000 blocks: 16 of 16 colours, and the others kept */
#define SIXTEENS "A502 E1000125 EF" EIGHT(SIXTEEN SIXTEEN) EIGHT("10FF") "10FF10FF10FF10FF10FF10FF10FF 108F"

/* 8 by 4 pixels: the first copied to the second, a chunk that is refused, both of colour 5 */
#define LISTING "0201 06E10000060020 04E1000004 06E10000066105"

/* behind their lengths, chunks for two blocks with zeros after the last one, and one with another byte: accepted are all
 * but the third and the last */
#define PADDED "08E100000801000000 09E10000096105000000 0AE100000A610600000000 07E1000007002000 08E100000800200001"

static const char *const seeds[] = {
    /* paper 01's examples 2 to 13 and 15 */
    "01 00 00  05 0600 E10000066105  01",
    "00 00 00  05 0500 E100000520",
    "00 00 00  0D 0500 E100000501",
    "00 00 00  05 0600 E10000069000",
    "00 00 01  0D 0900 E10000098003070008",
    "00 00 00  05 0600 E100000600AA",
    "00 00 00  05 0400 E1000004",
    "00 00 00  0D 0500 E100000510",
    "00 00 00  05 0500 E1000005F0",
    "01 00 03  00  05 0600 E10000060020  01",
    "00 00 00  05 0000  05 0600 E10000076005  0D 0000",
    "00 00 00  04 03 01 0000 00 00 05  04 00 00",
    "03 00 00  05 0900 E10000096001600240  01",
    /* every opcode, on 80 blocks; copies and a run across lines, early */
    "13 03 07  00  65 6C00 E1000000 00 1001 6101 700102 20 3101 40 5000 81 0102 FF00 0FF0 90 00 1234"
    " A0 01020304 1B1B1B1B B0 00 E4E4E4E4 C0 0102030405060708 0123456789AB D1 00 0123456789AB BA9876543210"
    " E0" SIXTEEN "  01",
    "02 02 03  00  6D 0B00 E1000000 60052023412261",
    /* F behind every opcode, most of them for two blocks or three; 0, and behind other blocks 5 to 11; behind so many
     * that 8 bits cannot tell them */
    "13 03 07  25 7B00 E1000000 01 41 5F01 22 3F02 6109 7F0209 81 0102 FF00 0FF0 92 00 1234 5678 9ABC"
    " A1 01020304 1B1B1B1B 1B1B1B1B B1 00 E4E4E4E4 E4E4E4E4 C1 0102030405060708 0123456789AB 0123456789AB"
    " D1 00 0123456789AB BA9876543210 E1" SIXTEEN SIXTEEN " F0",
    "03 01 05  05 0700 E1000007 610942  0D 0500 E1000005 02  05 0600 E1000006 0261  0D 0600 E1000006 05F1"
    "  05 0600 E1000006 0041  0D 0700 E1000007 610907  05 0700 E1000007 039100  0D 0700 E1000007 0600AA",
    "4F 31 07  05 0800 E1000008 10FF10FE  0D 0800 E1000008 015FFF62  05 0900 E1000009 10FF10FEF0"
    "  0D 0C00 E100000C 70FF0530FF5FFF9E  05 0900 E1000009 10FF04B300",
    /* after the last block: up to five zeros, and others at each place; behind zeros of the last opcode's own; 256 zeros */
    "00 00 03  05 0500 E1000005 00  0D 0600 E1000006 00 00  05 0700 E1000007 00 0000  0D 0800 E1000008 00 000000"
    "  05 0900 E1000009 00 00000000  0D 0A00 E100000A 00 0000000000  05 0700 E1000007 00 0100"
    "  0D 0800 E1000008 00 000080",
    "01 00 05  05 0700 E1000007 6100 00  0D 0900 E1000009 7F0100 0000  05 0A00 E100000A 6105 00000000"
    "  0D 0C00 E100000C 81010200000000 00  05 0900 E1000009 0020 000000  0D 0900 E1000009 0020 000100"
    "  05 0800 E1000008 01 018000  0D 0501 E1000105 01" EIGHT(EIGHT("00000000")),
    /* writes: blocks of each count of colours, each kind of room */
    "07 03 05  04 00 06 0000 13 00 09 0300 00 01 0102 0500 00 02 010203 0700 00 04 0102030405"
    " 0900 00 08 010203040506070809 0B00 01 0F" SIXTEEN "  04 01 01 0400 02 01 0708  0C 02 01 0200 00 03 09080706",
    "03 02 11  04 03 01 0100 00 01 0809  0C 04 01 0200 00 01 0809  04 05 01 0300 00 01 0809"
    "  04 06 01 0300 00 01 0709  04 07 01 0400 00 0F" SIXTEEN,
    /* one colour all over, then nothing changed: runs of 256 */
    "4F 31 00  04 00 10 0000 FF 00 05 0001 FF 00 05 0002 FF 00 05 0003 FF 00 05  04 01 00  01",
    /* the longest chunk that is written, 68,004 bytes */
    "4F 31 00  04 00 10" FILLED("0000") FILLED("0001") FILLED("0002") FILLED("0003") FILLED("0004") FILLED("0005")
    FILLED("0006") FILLED("0007") FILLED("0008") FILLED("0009") FILLED("000A") FILLED("000B") FILLED("000C")
    FILLED("000D") FILLED("000E") FILLED("000F") "  01",
    /* old and new picture the same, and shifted by 4 and by 1 */
    "07 03 05  24 00 00  24 01 04  2C 03 01",
    /* feeds: the listing's (examples/listing.feed); repaired; numbers badly formed and cut off; chunks cut off; another
     * width and the same lengths; sizes refused */
    "01 00 00  03 1500" LISTING "  01",
    "03 01 09  2B 1500 06 E10000006707 00 05 E100000060 06 E10000002061",
    "00 00 00  03 0200 8000  03 0500 0101808080  0B 0600 010180808080  03 0100 01  03 0600 010180808008",
    "00 00 00  03 0600 0101FFFFFF07  03 0600 010180808004  03 0300 010105  0B 0500 010105E100  03 0000  0B 0000",
    "01 00 01  0B 0900 0102 06 E10000066105  03 0700 010100FFFFFF08  03 0200 5101",
    /* padded, as they are and repaired, whole and cut in the padding */
    "01 00 07  03 3100 0201" PADDED "  01  2B 1200 07E1000000610700 09E10000000020000000  03 0900 0201 08E10000080100",
    /* runs: the listing's; repaired, with refused chunks at the end too; more than 8 bits can count; padded as above */
    "01 00 00  07 1300 06E1000006002004E100000406E10000066105  01",
    "03 01 09  00  2F 2700 07E1000000610725 00 05E100000020 06E10000000142 0AE1000000800102FF0006 05E1000000F0  01",
    "00 00 01  07 3006" KEPT264,
    "01 00 07  07 2F00" PADDED "  01  2F 1200 07E1000000610700 09E10000000020000000  07 0700 08E10000080100",
    /* empty; a chunk of length 0; numbers badly formed and cut off, and chunks cut off, at first and after an accepted
     * chunk */
    "00 00 00  07 0000  0F 0000  07 0100 00  0F 0200 8000  07 0100 80  0F 0100 05  07 0700 07E10000066005  0F 0400"
    "FFFFFF07",
    "00 00 00  07 0900" FIVE "8000  0F 0B00" FIVE "80808080  07 0B00" FIVE "80808008  0F 0800" FIVE "80  07 0A00" FIVE
    "808080  0F 0800" FIVE "05  07 0B00" FIVE "05E10000  0F 0B00" FIVE "FFFFFF07",
    /* by sides and lengths that are odd */
    "00 00 00  17 13 13 3F 0700" FIVE "  1F 14 1B 00 0000  17 1B 1B 01 0700" FIVE "  1F 1B 1B 02 0000"
    "  17 1B 1B 18 0200 8000  1F 1B 1B 09 0000  37 10 1B 00 0700" FIVE "  17 1B 1B 03 0700" FIVE,
    /* records untrue to a fresh map: 0, one less, one more, one above the blocks, 2^64 - 1; twice the blocks, brought down;
     * then all is settled: one less is 2^64 - 1 */
    "01 00 07  85 00 0600 E10000066105  8D 01 0600 E10000066105  85 02 0500 E100000501  8D 04 0600 E10000060020"
    "  85 05 0500 E100000501  8D 08 0600 E10000066105  85 01 0500 E100000501  8D 03 0600 E10000060020",
    /* to a map that is settled here and there: blocks unsettled, settled, and both, at either bound */
    "03 00 05  02 0400 FFFF0000  85 03 0700 E1000007 012000  8D 05 0700 E1000007 012000  85 00 0800 E1000008 01206005"
    "  8D 00 0600 E1000006 6305  85 0F 0700 E1000007 012000  8D 02 0500 E1000005 03  85 01 0600 E1000006 6305",
    "07 07 03  02 0600 FFFF0000FEFF  C5 00 0900 E1000009 10056005  CD 04 0700 E1000007 003F00  E5 0A 0600 E1000000 0123"
    "  CD 0B 0600 E1000000 0123  E5 0E 0600 E1000000 6105  CD 01 0A00 E1000000 7F3F05  E5 09 0500 E1000000 01",
    /* other refusals go first */
    "03 01 05  85 05 0500 E1000005 02  8D 05 0600 E1000006 0261  85 05 0600 E1000006 05F1  8D 05 0600 E1000006 0041"
    "  85 05 0700 E1000007 610907  8D 05 0700 E1000007 039100  85 05 0700 E1000007 0600AA  8D 05 0300 E10000",
    /* 21 at first, in the middle and last in runs and feeds, 12 and 13 behind it */
    "01 00 07  87 01 1500" FIVES NINE KEPT "  8F 00 1500" KEPT FIVES NINE "  00  87 04 1C00" KEPT NINE COPIED FIVES
    "  00  8F 01 1100" FIVES NINE "8000  00  87 08 1000" NINE FIVES "05",
    "01 00 07  83 01 1700 0201" FIVES NINE KEPT "  00  8B 04 1E00 0201" KEPT NINE COPIED FIVES "  00  83 01 1300 0201"
    FIVES NINE "8000  00  8B 05 1000 0201" FIVES FIVES,
    /* feeds whose size is not the record's: of the same lengths or not, a record's that is not allowed, a feed's */
    "01 00 07  03 0900 0102" FIVES "  0B 0900 0202" FIVES "  13 05 1B 00 0900 0201" FIVES "  1B 1B 10 00 0900 0201" FIVES
    "  13 15 1B 00 0900 0201" FIVES "  1B 0C 1B 00 0900 5101" FIVES "  83 05 0900 0001" FIVES "  93 05 1B 00 05 0200 8000",
    /* steps: through the listing's feed and to its end; from other places of it */
    "01 00 00  43 02 1500" LISTING "  4B 09 1500" LISTING "  43 0E 1500" LISTING "  4B 15 1500" LISTING
    "  43 00 1500" LISTING "  4B 08 1500" LISTING "  43 F8 1500" LISTING "  4B FF 1500" LISTING,
    /* a run's, repaired or padded; a feed's that gets the board's size, or has another */
    "01 00 07  67 00 1400" FIVES FIVES KEPT "  6F 08 1500" NINE COPIED KEPT "  47 09 2F00" PADDED "  4F 1E 2F00" PADDED
    "  63 02 0700" FIVES "  6B 0A 0F00" NINE COPIED "  43 02 0900 0102" FIVES "  4B 02 0900 8001" FIVES,
    /* numbers badly formed and cut off, and chunks cut off, behind a chunk; a chunk of length 0 */
    "00 00 00  47 07 0900" FIVE "8000  4F 07 0B00" FIVE "80808080  47 07 0B00" FIVE "80808008  4F 07 0800" FIVE
    "80  47 07 0800" FIVE "05  4F 07 0B00" FIVE "05E10000  47 07 0800" FIVE "00  4F 07 0B00" FIVE "FFFFFF07",
    /* past the end, near and far, also of nothing */
    "00 00 05  47 F9 0700" FIVE "  4F FA 0700" FIVE "  47 FC 0700" FIVE "  4F FD 0700" FIVE "  47 FE 0700" FIVE
    "  4F 00 0000  47 F8 0000  4F FF 0000",
    /* by sides and lengths that are odd, whatever stands there; by records that are untrue */
    "00 00 00  57 13 13 3F 00 0700" FIVE "  5F 1B 1B 01 07 0700" FIVE "  57 1B 1B 18 FF 0200 8000  5F 10 1B 00 00 0000"
    "  57 1B 1B 03 00 0200 8000  C7 00 00 0700" FIVE "  CF 04 00 0600 05E100000500  C3 05 02 0900 0101" FIVE,
    /* on the largest board, of a run and of a feed, a chunk whose length has two bytes */
    "4F 31 07  47 00 2701" SIXTEENS "  4B 02 2901 5032" SIXTEENS,
    /* feeds by their sizes: at each limit and past it, and those of which the lower bits would be allowed */
    "4F 31 00  03 0200 5032  0B 0200 5132  03 0200 5033  0B 0200 5000  03 0300 810201  0B 0300 018102  03 0400 01818002"
    "  0B 0500 8180800201",
    /* any numbers in the map, moved and counted */
    "03 02 01  02 0600 FFFF0000FEFF  01  65 0800 E100000000214041  09  02 0100 FF  01",
    /* by each call: sides whose product overflows, with lengths of that product; too long and too short by one; empty;
     * sides that 32 bits would take for allowed ones, and other great ones */
    "00 00 00  10 13 13 3F  11 14 14 3F  15 14 14 3F 0600 E10000066005  14 15 14 3F 00 01  1D 0F 0F 3F 0000"
    "  1C 17 14 3F 00 07",
    "07 07 00  18 1B 1B 10  19 1B 1B 18  1D 1B 1B 02 0600 E10000066005  1D 1B 1B 03 0000  1C 1B 1B 00 00 02"
    "  14 1B 1B 02 03 00  33 1B 1B 12 0700 06E10000066005",
    "07 07 00  18 1B 1B 09  19 1B 1B 09  1D 1B 1B 09 0000  15 1B 1B 09 0000  14 1B 1B 09 06 01  1C 1B 1B 09 06 01"
    "  13 1B 1B 09 0000",
    "07 07 00  10 10 10 00  11 10 1B 00  15 10 10 00 0600 E10000066005  14 1B 10 00 00 00  1C 1A 18 00 00 00"
    "  15 08 1B 3F 0000",
    /* symbols: within, about each corner, and far off, in both orders */
    "01 00 07  26 0200 0100 00 1C00" SYMBOL "  2E FFFF FFFF 00 1C00" SYMBOL "  26 0600 0200 00 1C00" SYMBOL
    "  2E FEFF 0300 00 1C00" SYMBOL "  66 0500 FEFF 00 1C00" HIGH_SYMBOL "  6E FCFF FDFF 00 1C00" HIGH_SYMBOL
    "  66 0080 0080 00 1C00" HIGH_SYMBOL "  6E FF7F FF7F 00 1C00" HIGH_SYMBOL,
    /* whole files: three frames of which two share an offset and one has none; a frame in its own table */
    "04 02 05  06 0100 0100 01 3800 F7010000 03000000 07000000 FFFFFFFF 18000000 18000000 00000000" SYMBOL
    "  0E 0000 0000 02 3800 F8010000 03000000 07000000 FFFFFFFF 18000000 18000000 00000000" SYMBOL
    "  06 0100 0100 00 3800 F9010000 03000000 07000000 FFFFFFFF 18000000 18000000 00000000" SYMBOL
    "  0E 0000 0000 00 1400 000001F6 00000002 00000000 00000008 00000500",
    /* 15: no file, cut heads, versions, counts; 16: the count, odd frames; 17: words, offsets and lengths */
    "00 00 00  06 0000 0000 00 0000  0E 0000 0000 00 0100 00  06 0000 0000 00 0B00 F6010000 01000000 000000"
    "  0E 0000 0000 00 0F00 F6010000 01000000 00000000 100000  06 0000 0000 00 1000 F5010000 01000000 00000000 10000000"
    "  06 0000 0000 00 1000 000001FA 00000001 00000000 00000010"
    "  0E 0000 0000 00 1000 F6010000 01000040 00000000 10000000  06 0000 0000 00 0C00 F6010000 FFFFFFFF 00000000",
    "00 00 00  26 0000 0000 01 1C00" SYMBOL "  26 0000 0000 FA 1C00" SYMBOL "  2E 0000 0000 FC 1C00" SYMBOL
    "  26 0000 0000 FF 1C00" SYMBOL "  06 0000 0000 00 0C00 F6010000 00000000 00000000  26 0000 0000 00 0500 0000000000"
    "  06 0000 0000 00 1C00 F6010000 01000000 00000000 10000000 00000100 0000 0000 0000 0500"
    "  0E 0000 0000 00 1A00 F6010000 01000000 00000000 F7FFFFFF 00000000 0000 0000 0000",
    /* 18: no head, half a head, another code, under 4, past the height, past the bytes */
    "00 00 00  26 0000 0000 00 0600 010002000000  2E 0000 0000 00 0700 010002000000 04"
    "  26 0000 0000 00 0800 010002000000 0500  2E 0000 0000 00 0900 010002000000 0403 01"
    "  26 0000 0000 00 0A00 010002000000 0902 0500  2E 0000 0000 00 0B00 010002000000 0406 0202 07"
    "  26 0000 0000 00 0E00 020002000000 0404 0102 0701 0500",
    /* 19: another code, past the row, a byte left over, a pad byte that is not there, past the width */
    "00 00 00  26 0000 0000 00 0C00 010002000000 0404 0401 0500  2E 0000 0000 00 0C00 010002000000 0404 0201 0707"
    "  26 0000 0000 00 0D00 010002000000 0405 0101 01 0500  2E 0000 0000 00 0D00 010003000000 0405 0301 07 0500"
    "  26 0000 0000 00 0E00 010002000000 0406 0203 0707 0500  2E 0000 0000 00 0C00 010000000000 0404 0101 0500",
    /* 20: other bytes, half a marker, a row too many; accepted: no rows, no width, 09 00, bytes behind the marker */
    "00 00 00  26 0000 0000 00 0A00 010002000000 0901 0501  2E 0000 0000 00 0900 010002000000 0901 05"
    "  26 0000 0000 00 0C00 010002000000 0901 0900 0500  2E 0000 0000 00 0800 000000000000 0500"
    "  26 0000 0000 00 0A00 000002000000 0500 0404  2E 0000 0000 00 1400 020000000000 0900 0408 0100 0200 0707 0901 0500",
    /* high ones, of which the last row shows, is refused, or is not there; the highest, whose pixel shows, or would in
     * 16 bits; one wider than the board on both sides, and one of which the last columns show */
    "07 07 03  26 0000 20E0 00 5200 E21F02000000" ROWS "0404 0102 0406 0202 0707 0500"
    "  2E 0000 20E0 00 5000 E21F02000000" ROWS "0402 0406 0202 0707 0500  26 0500 0080 00 4600 00E002000000" ROWS,
    "07 07 03  26 0400 0080 00 1202" HIGHEST "  2E 0400 FD7F 00 1202" HIGHEST,
    "07 00 01  2E FDFF FFFF 00 2000 0300FF000000 0406 02FF 0102 0408 01C8 0237 0505 040A 0201 0606 0302 0809 0500"
    "  26 02FC 0000 00 1600 0100FFFF0000 040E 01FF 01FF 01FF 01FF 02FF 0506 0500",
    /* copies longer than the boards above are wide, whole and past the left and the right edge */
    "4F 00 09  26 0000 0000 00 E000" COPIES "  2E F6FF 0000 00 E000" COPIES "  26 0401 0000 00 E000" COPIES,
    /* by sides and lengths that are odd */
    "07 07 00  16 14 14 07 0000 0000 00 0000  1E 1B 1B 02 0000 0000 00 0000  36 1B 1B 03 0000 0000 00 1C00" SYMBOL
    "  3E 1B 1B 01 0000 0000 00 1C00" SYMBOL "  36 10 1B 00 0000 0000 00 1C00" SYMBOL
    "  36 1B 1B 08 FFFF FFFF 00 1C00" SYMBOL,
};

#define SEEDS (sizeof seeds / sizeof *seeds)

static size_t from_hex(const char *text, uint8_t *to)
{
    static const char digits[] = "0123456789ABCDEF";
    size_t count = 0;
    for (; *text; text++) {
        const char *digit = strchr(digits, *text);
        if (!digit)
            continue;
        unsigned half = (unsigned)(digit - digits);
        to[count / 2] = (uint8_t)(count % 2 ? to[count / 2] | half : half << 4);
        count++;
    }
    return count / 2;
}

/* One opcode for one block: its entry's number or colours, and its flags. */
static uint8_t *opcode(uint8_t *to, unsigned upper, unsigned bytes, unsigned from)
{
    *to++ = (uint8_t)(upper << 4);
    for (unsigned k = 0; k < bytes; k++)
        *to++ = (uint8_t)(from + 37 * k);
    return to;
}

/* On the largest board: 260 entries stored in each table, so that the first four are lost, and some of them named. */
static size_t full_tables(uint8_t *to)
{
    uint8_t *chunk = to + from_hex("4F 31 00  65 0000", to), *at = chunk + from_hex("E1000000", chunk);
    for (unsigned table = 0; table < 3; table++) {
        unsigned colours = 2u << table, flags = 2 + 2 * table;
        for (unsigned entry = 0; entry < 260; entry++)
            at = opcode(at, 8 + 2 * table, colours + flags, entry);
        for (unsigned entry = 0; entry < 256; entry += 3)
            at = opcode(at, 9 + 2 * table, 1 + flags, entry);
    }
    size_t length = (size_t)(at - chunk);
    chunk[-2] = (uint8_t)length;
    chunk[-1] = (uint8_t)(length >> 8);
    return (size_t)(at - to);
}

size_t seed(size_t number, uint8_t input[LONGEST_INPUT])
{
    return number < SEEDS ? from_hex(seeds[number], input) : number == SEEDS ? full_tables(input) : 0;
}

/* ---- inputs from a fixed generator ---- */

/* A step of a linear congruential generator; the upper bits are the better ones. */
static unsigned below(uint64_t *state, unsigned bound)
{
    *state = *state * 6364136223846793005u + 1442695040888963407u;
    return (unsigned)((*state >> 33) % bound);
}

/* Sets a byte, or moves what stands from there on by some bytes, forth or back. */
static size_t edited(uint64_t *state, uint8_t *input, size_t length)
{
    size_t at = below(state, (unsigned)length), by = 1 + below(state, 8);
    unsigned kind = below(state, 8);
    if (kind == 0 && length + by <= LONGEST_INPUT) {
        memmove(input + at + by, input + at, length - at);
        return length + by;
    }
    if (kind == 1 && at + by < length) {
        memmove(input + at, input + at + by, length - at - by);
        return length - by;
    }
    input[at] = (uint8_t)(kind < 5 ? below(state, 256) : input[at] ^ 1u << below(state, 8));
    return length;
}

/* A seed with some edits, and in one case of four any bytes behind it; in one of eight any bytes on a small board, for
 * a chunk or for a symbol's rows. */
size_t made_input(uint64_t number, uint8_t input[LONGEST_INPUT])
{
    uint64_t state = number;
    unsigned kind = (below(&state, 8), below(&state, 8)); /* the first step still shows the number */
    const char *any = below(&state, 2) ? "02 02 00 65 FF00 E1000000" : "02 02 00 26 0000 0000 00 FF00 0200 0400 0000";
    size_t length = kind == 0 ? from_hex(any, input) : seed(below(&state, SEEDS + 1), input);
    for (unsigned edits = below(&state, 6); kind > 0 && edits > 0; edits--)
        length = edited(&state, input, length);
    for (unsigned more = kind < 3 ? below(&state, 300) : 0; more > 0 && length < LONGEST_INPUT; more--)
        input[length++] = (uint8_t)below(&state, 256);
    return length;
}
