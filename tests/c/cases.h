/* Written by tests/c/write_cases.py from the oracle's answers. Included by answers.c alone, which says what the columns are. */

#define LIMIT_BOXES 1024
#define LIMIT_SPAN 16000
#define LIMIT_DIRECTION 32000
#define LIMIT_WEIGHT 2048000000
#define LIMIT_INPUT 65536

#define LONGEST_PLUGS 6548
#define LONGEST_TEXT_LENGTH 91521
#define LONGEST_TEXT_HASH UINT64_C(0x4435D4D15EBA9612)
#define TOO_LONG_TEXT "refused 12 65536\n"

static const int32_t numbers_1[] = {
    -3, -6, 7, 9, -4, -23, -1, -16, -5, 7, 10, 13, -5, -12, -5, -10, 4, 0, 10, 3, -5, -6, -5, -1, -5, 9, -4, 24, -14, 18, -11, 18
};
static const int32_t numbers_2[] = {
    -14, 18, -5, 24, -4, 24, 10, 13, 10, 0, -1, -23, -4, -23, -14, 18, 4, 0, -4, -23, -11, 18, 10, 7, 10, 0, -1, -23, -5, -12, -11, 18, -4,
    24, 10, 13, 10, 3, -1, -16, -5, -10, -14, 18, -5, 24, 4, 3, -4, -16
};
static const int32_t numbers_3[] = {
    0, 0, 2, 2, 8, 0, 10, 2, 8, 8, 10, 10, 0, 8, 2, 10
};
static const int32_t numbers_4[] = {
    0, 0, 0, 10, 10, 10, 10, 0, 0, 0, 0, 8, 8, 8, 8, 0, 2, 0, 2, 8, 10, 8, 10, 0, 2, 2, 2, 10, 10, 10, 10, 2, 0, 2, 0, 10, 8, 10, 8, 2
};
static const int32_t numbers_5[] = {
    3, -1, 3, -1, 9, 1, 9, 1, 0, -2, 0, -2
};
static const int32_t numbers_6[] = {
    0, -2, 9, 1, 0, -2, 9, 1, 0, -2, 9, 1, 0, -2, 9, 1, 0, -2, 9, 1
};
static const int32_t numbers_7[] = {
    5, -7, 5, -7, 5, -7, 5, -7
};
static const int32_t numbers_8[] = {
    5, -7, 5, -7, 5, -7, 5, -7, 5, -7
};
static const int32_t numbers_9[] = {
    -16000, -16000, 16000, 16000, 3, 4, 3, 4
};
static const int32_t numbers_10[] = {
    -16000, -16000, -16000, 16000, 16000, 16000, 16000, -16000, -16000, -16000, 3, 4, 3, 4, 16000, -16000, 3, 4, 16000, 16000, -16000,
    16000, 3, 4
};
static const int32_t numbers_11[] = {
    0, 0, 1, 1, 5, 6
};
static const int32_t numbers_12[] = {
    -3, -6, 7, 9, -4, -23, -1, -16, -5, 7, 10, 13, -5, -12, -5, -10, 4, 0, 10, 3, -5, -6, -5, -1, -5, 9, -4, 24, -14, 18, -11, 18, 3
};
static const int32_t numbers_13[] = {
    -3, -21, 5, -20, 12, 9, 21, 17, 25, 3, 28, 10, -28, 2, -23, 6, -11, 24, -6, 32
};
static const int32_t numbers_14[] = {
    0, 0, 2, 2, 8, 0, 10, 2, -16001, 0, 1, 1
};
static const int32_t numbers_15[] = {
    0, 0, 2, 2, 0, -16001, 1, 1
};
static const int32_t numbers_16[] = {
    0, 0, 2, 2, 0, 0, 16001, 1, 3, 0, 2, 0
};
static const int32_t numbers_17[] = {
    0, 0, 2, 2, 8, 0, 10, 2, 8, 8, 10, 10, 0, 8, 2, 10, 0, 2147483647, 1, 16001
};
static const int32_t numbers_18[] = {
    0, 0, 2, 2, 8, 0, 7, 2, 8, 8, 10, 10, 0, 8, 2, 10
};
static const int32_t numbers_19[] = {
    0, 0, 2, 2, 8, 0, 10, 2, 8, 8, 10, 7, 0, 0, 0, 16001
};
static const int32_t numbers_20[] = {
    -9, -2, 9, 3, 4, -1, 5, 1
};
static const int32_t numbers_21[] = {
    -16000, -16000, 16000, 16000
};
static const int32_t numbers_22[] = {
    -16000, -16000, -16000, -16000, 16000, -16000, 16000, -16000, 15999, 16000, 15999, 16000
};
static const int32_t numbers_23[] = {
    20, -30, 29, -24, -27, 7, -26, 9, -30, -2, -23, 1, 17, 3, 19, 6, -2, -16, 7, -10
};
static const int32_t numbers_24[] = {
    -24, -13, -17, -11, 8, 25, 11, 34, -13, 4, -10, 5, 0, 24, 5, 30, -9, -26, -2, -24
};
static const int32_t numbers_25[] = {
    -6, -3, 2, 2, 5, 13, 14, 22, 25, 9, 26, 13, 9, -10, 14, -8, 13, -17, 21, -11
};
static const int32_t numbers_26[] = {
    -14, -2, -9, 5, -9, 15, -2, 24, -29, 17, -24, 22, 25, -28, 26, -23, -14, -13, -10, -9, 4, -6, 12, -3
};
static const int32_t numbers_27[] = {
    17, -1, 18, 3, 9, -15, 18, -13, -20, -17, -18, -10, 22, 9, 24, 16, -3, 13, 1, 17, -26, 20, -20, 22
};
static const int32_t numbers_28[] = {
    -18, 4, -10, 5, 25, -2, 34, 3, 10, 17, 12, 18, -23, 3, -19, 9, 19, 14, 22, 21, -21, -29, -15, -28
};
static const int32_t numbers_29[] = {
    15, 10, 18, 19, -16, -30, -15, -25, -14, 18, -12, 25, 15, -25, 24, -24, 18, -3, 19, 0, -19, -27, -12, -25
};
static const int32_t numbers_30[] = {
    5, 9, 5, 9, 0, 0, 0, 0, 0, 0, 12, 0
};
static const int32_t numbers_31[] = {
    0, -15999, 0, 16000, -16000, 15998, -16000, 15998
};
static const uint8_t bytes_32[] = {
    0x5C, 0x01, 0x02, 0x5B, 0x00, 0x5B, 0x01, 0x00, 0x00, 0x00, 0x01, 0xFF, 0xFF, 0xFF, 0xFE, 0x00, 0x00, 0x00, 0x03, 0x00, 0x00, 0x00,
    0x04, 0x5B, 0x01, 0x80, 0x00, 0x00, 0x00, 0x7F, 0xFF, 0xFF, 0xFF, 0xFF, 0xFF, 0xFF, 0x00, 0x00, 0x01, 0x02, 0x03, 0x5C, 0xFF, 0x00,
    0x5B, 0x01, 0x00, 0x00, 0x00, 0x01, 0xFF, 0xFF, 0xFF, 0xFE, 0x00, 0x00, 0x00, 0x03, 0x00, 0x00, 0x00, 0x04, 0x5B, 0x02, 0x00, 0x00,
    0x00, 0x05, 0xFF, 0xFF, 0xFF, 0xFA, 0x5C, 0x00, 0x01, 0xFF, 0x5B, 0x02, 0x00, 0x00, 0x00, 0x0B, 0x00, 0x00, 0x00, 0x16, 0x5B, 0x00
};
static const int32_t numbers_33[] = {
    1, -2, 3, 4, -2147483648, 2147483647, -256, 66051, 1, -2, 3, 4
};
static const int32_t numbers_34[] = {
    5, -6, 11, 22
};
static const uint8_t bytes_35[] = {
    0x5B, 0x01, 0x80, 0x00, 0x00, 0x00, 0x7F, 0xFF, 0xFF, 0xFF, 0xFF, 0xFF, 0xFF, 0x00, 0x00, 0x01, 0x02, 0x03, 0x5B, 0x02, 0x00, 0x00,
    0x00, 0x05, 0xFF, 0xFF, 0xFF, 0xFA, 0x5B, 0x02, 0x00, 0x00, 0x00, 0x0B, 0x00, 0x00, 0x00, 0x16, 0x5B, 0x02, 0xFF, 0xFF, 0x80, 0x00,
    0x12, 0x34, 0x56, 0x78, 0x5B, 0x00
};
static const int32_t numbers_36[] = {
    -2147483648, 2147483647, -256, 66051
};
static const int32_t numbers_37[] = {
    5, -6, 11, 22, -32768, 305419896
};
static const uint8_t bytes_38[] = {
    0x5B, 0x01, 0x00, 0x00, 0x00, 0x01, 0xFF, 0xFF, 0xFF, 0xFE, 0x00, 0x00, 0x00, 0x03, 0x00, 0x00, 0x00, 0x04, 0x5B, 0x00
};
static const int32_t numbers_39[] = {
    1, -2, 3, 4
};
static const uint8_t bytes_40[] = {
    0x5B, 0x02, 0xFF, 0xFF, 0x80, 0x00, 0x12, 0x34, 0x56, 0x78, 0x5B, 0x00
};
static const int32_t numbers_41[] = {
    -32768, 305419896
};
static const uint8_t bytes_42[] = {
    0x5B, 0x00
};
static const uint8_t bytes_43[] = {
    0x5A, 0x00
};
static const uint8_t bytes_44[] = {
    0x5B, 0x01, 0x00, 0x00, 0x00, 0x01, 0xFF, 0xFF, 0xFF, 0xFE, 0x00, 0x00, 0x00, 0x03, 0x00, 0x00, 0x00, 0x04, 0x5B, 0x03, 0x5B, 0x00
};
static const uint8_t bytes_45[] = {
    0x5B, 0x01, 0x00, 0x00, 0x00, 0x01, 0xFF, 0xFF, 0xFF, 0xFE, 0x00, 0x00, 0x00, 0x03, 0x00, 0x00, 0x00, 0x04, 0x5B, 0x02, 0x00, 0x00,
    0x00, 0x05, 0xFF, 0xFF, 0xFF, 0xFA, 0x5B
};
static const uint8_t bytes_46[] = {
    0x5B, 0x01, 0x00, 0x00, 0x00, 0x01, 0xFF, 0xFF, 0xFF, 0xFE, 0x00, 0x00, 0x00, 0x03, 0x00, 0x00, 0x00, 0x04, 0x5B, 0x02, 0x00, 0x00,
    0x00, 0x05, 0xFF, 0xFF, 0xFF, 0xFA
};
static const uint8_t bytes_47[] = {
    0x5B, 0x01, 0x00, 0x00, 0x00, 0x01, 0xFF, 0xFF, 0xFF, 0xFE, 0x00, 0x00, 0x00, 0x03, 0x00, 0x00, 0x00, 0x04, 0x5B, 0x01, 0x80, 0x00,
    0x00, 0x00, 0x7F, 0xFF, 0xFF, 0xFF, 0xFF, 0xFF, 0xFF, 0x00, 0x00, 0x01, 0x02
};
static const uint8_t bytes_48[] = {
    0x5B, 0x01, 0x00, 0x00, 0x00, 0x01, 0xFF, 0xFF, 0xFF, 0xFE, 0x00, 0x00, 0x00, 0x03, 0x00, 0x00, 0x00, 0x04, 0x5C, 0x07, 0x04, 0x01,
    0x02, 0x03
};
static const uint8_t bytes_49[] = {
    0x5B, 0x01, 0x00, 0x00, 0x00, 0x01, 0xFF, 0xFF, 0xFF, 0xFE, 0x00, 0x00, 0x00, 0x03, 0x00, 0x00, 0x00, 0x04, 0x5B, 0x02, 0x00, 0x00,
    0x00, 0x05, 0xFF, 0xFF, 0xFF, 0xFA, 0x5B, 0x01, 0x80, 0x00, 0x00, 0x00, 0x7F, 0xFF, 0xFF, 0xFF, 0xFF, 0xFF, 0xFF, 0x00, 0x00, 0x01,
    0x02, 0x03, 0x5B, 0x00
};
static const uint8_t bytes_50[] = {
    0x5B, 0x02, 0x00, 0x00, 0x00, 0x05, 0xFF, 0xFF, 0xFF, 0xFA, 0x5B, 0x02, 0x00, 0x00, 0x00, 0x0B, 0x00, 0x00, 0x00, 0x16, 0x5B, 0x01, 0x00
};
static const uint8_t bytes_51[] = {
    0x5B, 0x01, 0x00, 0x00, 0x00, 0x01, 0xFF, 0xFF, 0xFF, 0xFE, 0x00, 0x00, 0x00, 0x03, 0x00, 0x00, 0x00, 0x04, 0x5B, 0x00, 0x00
};
static const uint8_t bytes_52[] = {
    0x5B, 0x01, 0x00, 0x00, 0x00, 0x01, 0xFF, 0xFF, 0xFF, 0xFE, 0x00, 0x00, 0x00, 0x03, 0x00, 0x00, 0x00, 0x04, 0x5B, 0x02, 0x00, 0x00,
    0x00, 0x05, 0xFF, 0xFF, 0xFF, 0xFA, 0x5B, 0x00, 0x5B
};
static const int32_t numbers_53[] = {
    8, 0, 10, 2, 8, 8, 10, 10
};
static const int32_t numbers_54[] = {
    3, -4, 16000, -16000, 5, 6
};
static const int32_t numbers_55[] = {
    1, 2, 3
};
static const int32_t numbers_56[] = {
    16001, 2, 3, 4, 5
};
static const int32_t numbers_57[] = {
    0, 0, 2, 2, 8, 0
};
static const int32_t numbers_58[] = {
    1, 2, 16001, 3, 4, 5
};
static const int32_t numbers_59[] = {
    1, 2, 3, 4, 5, -16001, 16001, 0
};
static const int32_t numbers_60[] = {
    16001
};
static const uint8_t bytes_61[] = {
    0x5B, 0x01, 0x00, 0x00, 0x00, 0x00, 0x00, 0x00, 0x00, 0x00, 0x00, 0x00, 0x00, 0x04, 0x00, 0x00, 0x00, 0x04, 0x5B, 0x02, 0x00, 0x00,
    0x00, 0x02, 0x00, 0x00, 0x00, 0x02, 0x5B, 0x02, 0x00, 0x00, 0x00, 0x05, 0x00, 0x00, 0x00, 0x02, 0x5B, 0x00
};
static const uint8_t bytes_62[] = {
    0x5B, 0x01, 0x00, 0x00, 0x00, 0x01, 0xFF, 0xFF, 0xFF, 0xFE, 0x00, 0x00, 0x00, 0x03, 0x00, 0x00, 0x00, 0x04, 0x5B, 0x03
};
static const uint8_t bytes_63[] = {
    0x5B, 0x02, 0x00, 0x00, 0x00, 0x05, 0xFF, 0xFF, 0xFF, 0xFA, 0x5B, 0x01, 0x00, 0x00, 0x00, 0x01, 0xFF, 0xFF, 0xFF, 0xFE, 0x00, 0x00,
    0x00, 0x03, 0x00, 0x00, 0x00, 0x04
};
static const uint8_t bytes_64[] = {
    0x5B, 0x01, 0x00, 0x00, 0x00, 0x01, 0xFF, 0xFF, 0xFF, 0xFE, 0x00, 0x00, 0x00, 0x03, 0x00, 0x00, 0x00, 0x04, 0x5B, 0x01, 0x80, 0x00,
    0x00, 0x00, 0x7F, 0xFF, 0xFF, 0xFF, 0xFF, 0xFF, 0xFF, 0x00, 0x00, 0x01, 0x02, 0x03, 0x5B, 0x00
};
static const uint8_t bytes_65[] = {
    0x5B, 0x02, 0x00, 0x00, 0x00, 0x05, 0xFF, 0xFF, 0xFF, 0xFA, 0x5B, 0x00
};
static const uint8_t bytes_66[] = {
    0x5B, 0x01, 0x00, 0x00, 0x00, 0x00, 0x00, 0x00, 0x00, 0x00, 0x00, 0x00, 0x00, 0x02, 0x00, 0x00, 0x00, 0x02, 0x5B, 0x01, 0x00, 0x00,
    0x00, 0x08, 0x00, 0x00, 0x00, 0x00, 0x00, 0x00, 0x00, 0x0A, 0x00, 0x00, 0x00, 0x02, 0x5B, 0x01, 0x00, 0x00, 0x00, 0x08, 0x00, 0x00,
    0x00, 0x08, 0x00, 0x00, 0x00, 0x0A, 0x00, 0x00, 0x00, 0x0A, 0x5B, 0x01, 0x00, 0x00, 0x00, 0x00, 0x00, 0x00, 0x00, 0x08, 0x00, 0x00,
    0x00, 0x02, 0x00, 0x00, 0x00, 0x0A, 0x5B, 0x02, 0x00, 0x00, 0x00, 0x05, 0x00, 0x00, 0x00, 0x05, 0x5B, 0x02, 0x00, 0x00, 0x00, 0x02,
    0x00, 0x00, 0x00, 0x05, 0x5B, 0x02, 0x00, 0x00, 0x00, 0x0B, 0x00, 0x00, 0x00, 0x05, 0x5B, 0x02, 0x00, 0x00, 0x3E, 0x81, 0x00, 0x00,
    0x00, 0x00, 0x5B, 0x02, 0x00, 0x00, 0x00, 0x03, 0x00, 0x00, 0x00, 0x03, 0x5B, 0x00
};
static const uint8_t bytes_67[] = {
    0x5B, 0x01, 0x00, 0x00, 0x00, 0x00, 0x00, 0x00, 0x00, 0x00, 0x00, 0x00, 0x00, 0x02, 0x00, 0x00, 0x00, 0x02, 0x5B, 0x01, 0x00, 0x00,
    0x00, 0x08, 0x00, 0x00, 0x00, 0x00, 0x00, 0x00, 0x00, 0x0A, 0x00, 0x00, 0x00, 0x02, 0x5B, 0x01, 0x00, 0x00, 0x00, 0x08, 0x00, 0x00,
    0x00, 0x08, 0x00, 0x00, 0x00, 0x0A, 0x00, 0x00, 0x00, 0x0A, 0x5B, 0x01, 0x00, 0x00, 0x00, 0x00, 0x00, 0x00, 0x00, 0x08, 0x00, 0x00,
    0x00, 0x02, 0x00, 0x00, 0x00, 0x0A, 0x5B, 0x01, 0x00, 0x00, 0x00, 0x01, 0x00, 0x00, 0x00, 0x00, 0x00, 0x00, 0x00, 0x00, 0x00, 0x00,
    0x00, 0x00, 0x5B, 0x00
};
static const uint8_t bytes_68[] = {
    0x5B, 0x01, 0xFF, 0xFF, 0xFF, 0xFD, 0xFF, 0xFF, 0xFF, 0xEB, 0x00, 0x00, 0x00, 0x05, 0xFF, 0xFF, 0xFF, 0xEC, 0x5B, 0x01, 0x00, 0x00,
    0x00, 0x0C, 0x00, 0x00, 0x00, 0x09, 0x00, 0x00, 0x00, 0x15, 0x00, 0x00, 0x00, 0x11, 0x5B, 0x01, 0x00, 0x00, 0x00, 0x19, 0x00, 0x00,
    0x00, 0x03, 0x00, 0x00, 0x00, 0x1C, 0x00, 0x00, 0x00, 0x0A, 0x5B, 0x01, 0xFF, 0xFF, 0xFF, 0xE4, 0x00, 0x00, 0x00, 0x02, 0xFF, 0xFF,
    0xFF, 0xE9, 0x00, 0x00, 0x00, 0x06, 0x5B, 0x01, 0xFF, 0xFF, 0xFF, 0xF5, 0x00, 0x00, 0x00, 0x18, 0xFF, 0xFF, 0xFF, 0xFA, 0x00, 0x00,
    0x00, 0x20, 0x5B, 0x00
};

static const struct polygon_case polygon_cases[] = {
    {"unequal counts", numbers_1, 32, 1, 69, 0, 0, 7, {3, 5, 6, 4}, numbers_2},
    {"unequal counts", numbers_1, 32, 1, 64, 0, 0, 7, {3, 5, 6, 4}, numbers_2},
    {"unequal counts", numbers_1, 32, 1, 63, 7, 64, 0, {0, 0, 0, 0}, NULL},
    {"unequal counts", numbers_1, 32, 1, 1, 7, 64, 0, {0, 0, 0, 0}, NULL},
    {"unequal counts", numbers_1, 32, 1, 0, 7, 64, 0, {0, 0, 0, 0}, NULL},
    {"round B", numbers_3, 16, 1, 32, 0, 0, 4, {4, 4, 4, 4}, numbers_4},
    {"in line", numbers_5, 12, 1, 25, 0, 0, 2, {2, 2, 2, 2}, numbers_6},
    {"all in one point", numbers_7, 8, 1, 16, 0, 0, 1, {1, 1, 1, 1}, numbers_8},
    {"the span", numbers_9, 8, 1, 17, 0, 0, 4, {2, 2, 2, 2}, numbers_10},
    {"1,024 boxes", numbers_3, 16, 256, 8193, 0, 0, 4, {4, 4, 4, 4}, numbers_4},
    {"1,024 boxes, one number short", numbers_3, 16, 256, 8191, 7, 8192, 0, {0, 0, 0, 0}, NULL},
    {"6 numbers", numbers_11, 6, 1, 70, 1, 6, 0, {0, 0, 0, 0}, NULL},
    {"6 numbers", numbers_11, 6, 1, 0, 1, 6, 0, {0, 0, 0, 0}, NULL},
    {"one number more", numbers_12, 33, 1, 70, 1, 33, 0, {0, 0, 0, 0}, NULL},
    {"one number more", numbers_12, 33, 1, 0, 1, 33, 0, {0, 0, 0, 0}, NULL},
    {"no box", NULL, 0, 1, 70, 2, 0, 0, {0, 0, 0, 0}, NULL},
    {"no box", NULL, 0, 1, 0, 2, 0, 0, {0, 0, 0, 0}, NULL},
    {"1,025 boxes", numbers_13, 20, 205, 70, 3, 1025, 0, {0, 0, 0, 0}, NULL},
    {"1,025 boxes", numbers_13, 20, 205, 0, 3, 1025, 0, {0, 0, 0, 0}, NULL},
    {"west of box 3 beyond", numbers_14, 12, 1, 70, 4, 3, 0, {0, 0, 0, 0}, NULL},
    {"west of box 3 beyond", numbers_14, 12, 1, 0, 4, 3, 0, {0, 0, 0, 0}, NULL},
    {"south of box 2 beyond", numbers_15, 8, 1, 70, 4, 2, 0, {0, 0, 0, 0}, NULL},
    {"south of box 2 beyond", numbers_15, 8, 1, 0, 4, 2, 0, {0, 0, 0, 0}, NULL},
    {"east of box 2 beyond, and box 3 reversed", numbers_16, 12, 1, 70, 4, 2, 0, {0, 0, 0, 0}, NULL},
    {"east of box 2 beyond, and box 3 reversed", numbers_16, 12, 1, 0, 4, 2, 0, {0, 0, 0, 0}, NULL},
    {"north of box 5 beyond, and south over it", numbers_17, 20, 1, 70, 4, 5, 0, {0, 0, 0, 0}, NULL},
    {"north of box 5 beyond, and south over it", numbers_17, 20, 1, 0, 4, 5, 0, {0, 0, 0, 0}, NULL},
    {"box 2 west over east", numbers_18, 16, 1, 70, 5, 2, 0, {0, 0, 0, 0}, NULL},
    {"box 2 west over east", numbers_18, 16, 1, 0, 5, 2, 0, {0, 0, 0, 0}, NULL},
    {"box 3 south over north, and box 4 beyond", numbers_19, 16, 1, 70, 5, 3, 0, {0, 0, 0, 0}, NULL},
    {"box 3 south over north, and box 4 beyond", numbers_19, 16, 1, 0, 5, 3, 0, {0, 0, 0, 0}, NULL},
};

static const struct verdict_case verdict_cases[] = {
    {"round B inside", numbers_3, 16, 1, 3, 7, 0, 0, 1, -1, 0, 0, 0, {{0, 0, 0}}},
    {"round B outside", numbers_3, 16, 1, 11, 5, 0, 0, 2, -1, 0, 0, 0, {{0, 0, 0}}},
    {"round B undecided", numbers_3, 16, 1, 2, 5, 0, 0, 3, -1, 0, 0, 0, {{0, 0, 0}}},
    {"inside, and outside with east and north exchanged", numbers_13, 20, 1, -5, 11, 0, 0, 1, -1, 0, 0, 0, {{0, 0, 0}}},
    {"a low box, undecided, and outside with east and north exchanged", numbers_20, 8, 1, 7, 2, 0, 0, 3, -1, 0, 0, 0, {{0, 0, 0}}},
    {"a low box, outside, and undecided with east and north exchanged", numbers_20, 8, 1, 2, 7, 0, 0, 2, -1, 0, 0, 0, {{0, 0, 0}}},
    {"the span", numbers_21, 4, 1, 16000, -15999, 0, 0, 3, -1, 0, 0, 2, {{16000, -16000, 31999}, {16000, 16000, 1}}},
    {"the span's corner points", numbers_22, 12, 1, 9001, -16000, 0, 0, 3, -1, 0, 0, 2, {{-16000, -16000, 6999}, {16000, -16000, 25001}}},
    {"1,024 boxes", numbers_3, 16, 256, 2, 4, 0, 0, 3, -1, 0, 0, 0, {{0, 0, 0}}},
    {"plug east beyond", numbers_3, 16, 1, 16001, 5, 6, 1, 0, -1, 0, 0, 0, {{0, 0, 0}}},
    {"plug north beyond", numbers_3, 16, 1, 5, -16001, 6, 1, 0, -1, 0, 0, 0, {{0, 0, 0}}},
    {"plug far beyond", numbers_3, 16, 1, -2147483648, 2147483647, 6, 1, 0, -1, 0, 0, 0, {{0, 0, 0}}},
    {"one direction 0", numbers_23, 20, 1, -5, 5, 0, 0, 3, 0, 1, 11, 0, {{0, 0, 0}}},
    {"one direction 1", numbers_24, 20, 1, -7, 8, 0, 0, 3, 1, -4, 3, 0, {{0, 0, 0}}},
    {"one direction 2", numbers_25, 20, 1, 8, -3, 0, 0, 3, 2, -5, -6, 0, {{0, 0, 0}}},
    {"one direction 3", numbers_13, 20, 1, 11, -5, 0, 0, 3, 3, 15, -14, 0, {{0, 0, 0}}},
    {"one balance 0", numbers_26, 24, 1, -16, -9, 0, 0, 3, -1, 0, 0, 2, {{-29, 17, 2}, {-14, -13, 13}}},
    {"one balance 1", numbers_27, 24, 1, 22, 1, 0, 0, 3, -1, 0, 0, 2, {{18, -15, 1}, {24, 9, 2}}},
    {"one balance 2", numbers_28, 24, 1, 26, 15, 0, 0, 3, -1, 0, 0, 2, {{22, 21, 2}, {34, 3, 1}}},
    {"one balance 3", numbers_29, 24, 1, -17, -5, 0, 0, 3, -1, 0, 0, 2, {{-19, -25, 3}, {-14, 25, 2}}},
    {"one balance 4", numbers_30, 12, 1, 5, 2, 0, 0, 3, -1, 0, 0, 3, {{0, 0, 49}, {5, 9, 24}, {12, 0, 35}}},
    {"one balance 5", numbers_31, 8, 1, -5000, 40, 0, 0, 3, -1, 0, 0, 3, {{-16000, 15998, 159995}, {0, -15999, 255350}, {0, 16000, 96639}}},
    {"6 numbers", numbers_11, 6, 1, 1, 2, 1, 6, 0, -1, 0, 0, 0, {{0, 0, 0}}},
    {"6 numbers", numbers_11, 6, 1, 16001, 0, 1, 6, 0, -1, 0, 0, 0, {{0, 0, 0}}},
    {"one number more", numbers_12, 33, 1, 1, 2, 1, 33, 0, -1, 0, 0, 0, {{0, 0, 0}}},
    {"one number more", numbers_12, 33, 1, 16001, 0, 1, 33, 0, -1, 0, 0, 0, {{0, 0, 0}}},
    {"no box", NULL, 0, 1, 1, 2, 2, 0, 0, -1, 0, 0, 0, {{0, 0, 0}}},
    {"no box", NULL, 0, 1, 16001, 0, 2, 0, 0, -1, 0, 0, 0, {{0, 0, 0}}},
    {"1,025 boxes", numbers_13, 20, 205, 1, 2, 3, 1025, 0, -1, 0, 0, 0, {{0, 0, 0}}},
    {"1,025 boxes", numbers_13, 20, 205, 16001, 0, 3, 1025, 0, -1, 0, 0, 0, {{0, 0, 0}}},
    {"west of box 3 beyond", numbers_14, 12, 1, 1, 2, 4, 3, 0, -1, 0, 0, 0, {{0, 0, 0}}},
    {"west of box 3 beyond", numbers_14, 12, 1, 16001, 0, 4, 3, 0, -1, 0, 0, 0, {{0, 0, 0}}},
    {"south of box 2 beyond", numbers_15, 8, 1, 1, 2, 4, 2, 0, -1, 0, 0, 0, {{0, 0, 0}}},
    {"south of box 2 beyond", numbers_15, 8, 1, 16001, 0, 4, 2, 0, -1, 0, 0, 0, {{0, 0, 0}}},
    {"east of box 2 beyond, and box 3 reversed", numbers_16, 12, 1, 1, 2, 4, 2, 0, -1, 0, 0, 0, {{0, 0, 0}}},
    {"east of box 2 beyond, and box 3 reversed", numbers_16, 12, 1, 16001, 0, 4, 2, 0, -1, 0, 0, 0, {{0, 0, 0}}},
    {"north of box 5 beyond, and south over it", numbers_17, 20, 1, 1, 2, 4, 5, 0, -1, 0, 0, 0, {{0, 0, 0}}},
    {"north of box 5 beyond, and south over it", numbers_17, 20, 1, 16001, 0, 4, 5, 0, -1, 0, 0, 0, {{0, 0, 0}}},
    {"box 2 west over east", numbers_18, 16, 1, 1, 2, 5, 2, 0, -1, 0, 0, 0, {{0, 0, 0}}},
    {"box 2 west over east", numbers_18, 16, 1, 16001, 0, 5, 2, 0, -1, 0, 0, 0, {{0, 0, 0}}},
    {"box 3 south over north, and box 4 beyond", numbers_19, 16, 1, 1, 2, 5, 3, 0, -1, 0, 0, 0, {{0, 0, 0}}},
    {"box 3 south over north, and box 4 beyond", numbers_19, 16, 1, 16001, 0, 5, 3, 0, -1, 0, 0, 0, {{0, 0, 0}}},
};

static const struct read_case read_cases[] = {
    {"three boxes and two plugs, with notes", bytes_32, 88, 12, 4, 0, 0, 3, 2, numbers_33, numbers_34},
    {"three boxes and two plugs, with notes", bytes_32, 88, 17, 6, 0, 0, 3, 2, numbers_33, numbers_34},
    {"three boxes and two plugs, with notes", bytes_32, 88, 11, 4, 7, 12, 0, 0, NULL, NULL},
    {"three boxes and two plugs, with notes", bytes_32, 88, 12, 3, 7, 4, 0, 0, NULL, NULL},
    {"three boxes and two plugs, with notes", bytes_32, 88, 0, 3, 7, 12, 0, 0, NULL, NULL},
    {"three boxes and two plugs, with notes", bytes_32, 88, 12, 0, 7, 4, 0, 0, NULL, NULL},
    {"one box and three plugs", bytes_35, 50, 5, 9, 0, 0, 1, 3, numbers_36, numbers_37},
    {"one box and no plug", bytes_38, 20, 4, 0, 0, 0, 1, 0, numbers_39, NULL},
    {"no box and one plug", bytes_40, 12, 0, 2, 0, 0, 0, 1, NULL, numbers_41},
    {"only the end", bytes_42, 2, 0, 0, 0, 0, 0, 0, NULL, NULL},
    {"only the end, buffers lent", bytes_42, 2, 3, 5, 0, 0, 0, 0, NULL, NULL},
    {"no byte", NULL, 0, 0, 0, 9, 0, 0, 0, NULL, NULL},
    {"no byte, buffers lent", NULL, 0, 6, 7, 9, 0, 0, 0, NULL, NULL},
    {"unknown mark at 0", bytes_43, 2, 4, 2, 8, 0, 0, 0, NULL, NULL},
    {"unknown mark at 18", bytes_44, 22, 4, 2, 8, 18, 0, 0, NULL, NULL},
    {"a lone byte where a mark belongs", bytes_45, 29, 4, 2, 9, 28, 0, 0, NULL, NULL},
    {"no end record", bytes_46, 28, 4, 2, 9, 28, 0, 0, NULL, NULL},
    {"a box cut short", bytes_47, 35, 8, 2, 9, 18, 0, 0, NULL, NULL},
    {"a note cut short", bytes_48, 24, 8, 2, 9, 18, 0, 0, NULL, NULL},
    {"a box after a plug", bytes_49, 48, 8, 2, 10, 28, 0, 0, NULL, NULL},
    {"a box after two plugs, cut short", bytes_50, 23, 8, 2, 10, 20, 0, 0, NULL, NULL},
    {"a byte after the end", bytes_51, 21, 4, 2, 11, 20, 0, 0, NULL, NULL},
    {"a byte after the end, buffers short", bytes_52, 31, 0, 0, 11, 30, 0, 0, NULL, NULL},
};

static const struct write_case write_cases[] = {
    {"two boxes and three plugs", numbers_53, 8, 1, numbers_54, 6, 68, 0, 0, 68, UINT64_C(0x0CB923B2E0F886DB)},
    {"two boxes and three plugs", numbers_53, 8, 1, numbers_54, 6, 75, 0, 0, 68, UINT64_C(0x0CB923B2E0F886DB)},
    {"two boxes and three plugs", numbers_53, 8, 1, numbers_54, 6, 67, 7, 68, 0, UINT64_C(0xCBF29CE484222325)},
    {"two boxes and three plugs", numbers_53, 8, 1, numbers_54, 6, 1, 7, 68, 0, UINT64_C(0xCBF29CE484222325)},
    {"two boxes and three plugs", numbers_53, 8, 1, numbers_54, 6, 0, 7, 68, 0, UINT64_C(0xCBF29CE484222325)},
    {"four boxes and no plug", numbers_3, 16, 1, NULL, 0, 80, 0, 0, 74, UINT64_C(0xD1EA5295A6DA747E)},
    {"four boxes and no plug, no room", numbers_3, 16, 1, NULL, 0, 0, 7, 74, 0, UINT64_C(0xCBF29CE484222325)},
    {"plug list of 3 numbers", numbers_3, 16, 1, numbers_55, 3, 200, 1, 3, 0, UINT64_C(0xCBF29CE484222325)},
    {"plug list of 5 numbers, plug 1 beyond, no room", numbers_3, 16, 1, numbers_56, 5, 0, 1, 5, 0, UINT64_C(0xCBF29CE484222325)},
    {"box list of 6 numbers, plug list of 3", numbers_57, 6, 1, numbers_55, 3, 200, 1, 6, 0, UINT64_C(0xCBF29CE484222325)},
    {"east of plug 2 beyond", numbers_3, 16, 1, numbers_58, 6, 200, 6, 2, 0, UINT64_C(0xCBF29CE484222325)},
    {"north of plug 3 beyond", numbers_3, 16, 1, numbers_59, 8, 0, 6, 3, 0, UINT64_C(0xCBF29CE484222325)},
    {"1,024 boxes, one byte short", numbers_3, 16, 256, NULL, 0, 18433, 7, 18434, 0, UINT64_C(0xCBF29CE484222325)},
    {"1,024 boxes", numbers_3, 16, 256, numbers_54, 6, 18464, 0, 0, 18464, UINT64_C(0xC9DE054C704187F3)},
    {"6 numbers", numbers_11, 6, 1, numbers_54, 6, 100, 1, 6, 0, UINT64_C(0xCBF29CE484222325)},
    {"6 numbers", numbers_11, 6, 1, numbers_60, 1, 0, 1, 6, 0, UINT64_C(0xCBF29CE484222325)},
    {"6 numbers", numbers_11, 6, 1, NULL, 0, 0, 1, 6, 0, UINT64_C(0xCBF29CE484222325)},
    {"one number more", numbers_12, 33, 1, numbers_54, 6, 100, 1, 33, 0, UINT64_C(0xCBF29CE484222325)},
    {"one number more", numbers_12, 33, 1, numbers_60, 1, 0, 1, 33, 0, UINT64_C(0xCBF29CE484222325)},
    {"one number more", numbers_12, 33, 1, NULL, 0, 0, 1, 33, 0, UINT64_C(0xCBF29CE484222325)},
    {"no box", NULL, 0, 1, numbers_54, 6, 100, 2, 0, 0, UINT64_C(0xCBF29CE484222325)},
    {"no box", NULL, 0, 1, numbers_60, 1, 0, 2, 0, 0, UINT64_C(0xCBF29CE484222325)},
    {"no box", NULL, 0, 1, NULL, 0, 0, 2, 0, 0, UINT64_C(0xCBF29CE484222325)},
    {"1,025 boxes", numbers_13, 20, 205, numbers_54, 6, 100, 3, 1025, 0, UINT64_C(0xCBF29CE484222325)},
    {"1,025 boxes", numbers_13, 20, 205, numbers_60, 1, 0, 3, 1025, 0, UINT64_C(0xCBF29CE484222325)},
    {"1,025 boxes", numbers_13, 20, 205, NULL, 0, 0, 3, 1025, 0, UINT64_C(0xCBF29CE484222325)},
    {"west of box 3 beyond", numbers_14, 12, 1, numbers_54, 6, 100, 4, 3, 0, UINT64_C(0xCBF29CE484222325)},
    {"west of box 3 beyond", numbers_14, 12, 1, numbers_60, 1, 0, 4, 3, 0, UINT64_C(0xCBF29CE484222325)},
    {"west of box 3 beyond", numbers_14, 12, 1, NULL, 0, 0, 4, 3, 0, UINT64_C(0xCBF29CE484222325)},
    {"south of box 2 beyond", numbers_15, 8, 1, numbers_54, 6, 100, 4, 2, 0, UINT64_C(0xCBF29CE484222325)},
    {"south of box 2 beyond", numbers_15, 8, 1, numbers_60, 1, 0, 4, 2, 0, UINT64_C(0xCBF29CE484222325)},
    {"south of box 2 beyond", numbers_15, 8, 1, NULL, 0, 0, 4, 2, 0, UINT64_C(0xCBF29CE484222325)},
    {"east of box 2 beyond, and box 3 reversed", numbers_16, 12, 1, numbers_54, 6, 100, 4, 2, 0, UINT64_C(0xCBF29CE484222325)},
    {"east of box 2 beyond, and box 3 reversed", numbers_16, 12, 1, numbers_60, 1, 0, 4, 2, 0, UINT64_C(0xCBF29CE484222325)},
    {"east of box 2 beyond, and box 3 reversed", numbers_16, 12, 1, NULL, 0, 0, 4, 2, 0, UINT64_C(0xCBF29CE484222325)},
    {"north of box 5 beyond, and south over it", numbers_17, 20, 1, numbers_54, 6, 100, 4, 5, 0, UINT64_C(0xCBF29CE484222325)},
    {"north of box 5 beyond, and south over it", numbers_17, 20, 1, numbers_60, 1, 0, 4, 5, 0, UINT64_C(0xCBF29CE484222325)},
    {"north of box 5 beyond, and south over it", numbers_17, 20, 1, NULL, 0, 0, 4, 5, 0, UINT64_C(0xCBF29CE484222325)},
    {"box 2 west over east", numbers_18, 16, 1, numbers_54, 6, 100, 5, 2, 0, UINT64_C(0xCBF29CE484222325)},
    {"box 2 west over east", numbers_18, 16, 1, numbers_60, 1, 0, 5, 2, 0, UINT64_C(0xCBF29CE484222325)},
    {"box 2 west over east", numbers_18, 16, 1, NULL, 0, 0, 5, 2, 0, UINT64_C(0xCBF29CE484222325)},
    {"box 3 south over north, and box 4 beyond", numbers_19, 16, 1, numbers_54, 6, 100, 5, 3, 0, UINT64_C(0xCBF29CE484222325)},
    {"box 3 south over north, and box 4 beyond", numbers_19, 16, 1, numbers_60, 1, 0, 5, 3, 0, UINT64_C(0xCBF29CE484222325)},
    {"box 3 south over north, and box 4 beyond", numbers_19, 16, 1, NULL, 0, 0, 5, 3, 0, UINT64_C(0xCBF29CE484222325)},
};

static const struct print_case print_cases[] = {
    {"docs/SCOPE.md", bytes_61, 40, "boxes 1 plugs 2\n1 undecided\n2 outside\n"},
    {"no byte", NULL, 0, "refused 9 0\n"},
    {"unknown mark", bytes_62, 20, "refused 8 18\n"},
    {"cut short", bytes_46, 28, "refused 9 28\n"},
    {"box after plug", bytes_63, 28, "refused 10 10\n"},
    {"byte after the end", bytes_51, 21, "refused 11 20\n"},
    {"edge beyond", bytes_64, 38, "refused 4 2\n"},
    {"no box", bytes_65, 12, "refused 2 0\n"},
    {"round B", bytes_66, 124, "boxes 4 plugs 5\n1 inside\n2 undecided\n3 outside\n4 refused 6\n5 inside\n"},
    {"edges reversed", bytes_67, 92, "refused 5 5\n"},
    {"no plug", bytes_68, 92, "boxes 5 plugs 0\n"},
};
