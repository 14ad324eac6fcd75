/* With other.c: what pine.h itself defines, from two units. Prints nothing if all is as it should be. */
#include "pine.h"

#include <stdio.h>
#include <string.h>

const char *text_elsewhere(uint64_t number); /* other.c */

static int failed;

static void check(int holds, const char *what) {
    if (!holds) {
        printf("FAILED: %s\n", what);
        failed = 1;
    }
}

/* Every rule has a text of its own, and every other number the same one. */
static void texts(void) {
    static const uint64_t rules[] = {0, 1, 2, 3, 4, 5, 6, 7, 8, 9, 10, 11, 12, 13, 14, 15, 16, 17, 18, 19, 20, 21, 22,
                                     23};
    static const uint64_t others[] = {24, 25, UINT64_C(1) << 32, UINT64_MAX};
    const size_t count = sizeof rules / sizeof *rules;
    const char *const none = pine_rule_text(24);
    for (size_t i = 0; i < count; i++) {
        const char *text = pine_rule_text(rules[i]);
        check(text[0] != '\0' && strcmp(text, none) != 0, "a rule has no text");
        check(strcmp(text, text_elsewhere(rules[i])) == 0, "two units differ");
        for (size_t j = 0; j < i; j++) {
            check(strcmp(text, pine_rule_text(rules[j])) != 0, "two rules have one text");
        }
    }
    for (size_t i = 0; i < sizeof others / sizeof *others; i++) {
        check(strcmp(pine_rule_text(others[i]), none) == 0, "a number that is no rule has a text of its own");
    }
}

static void is_at(uint64_t place, size_t row1_len, size_t row2_len, uint64_t row, uint64_t index) {
    PineElementPlace at = pine_element_place(place, row1_len, row2_len);
    check(at.row == row && at.index == index, "pine_element_place gives another element");
}

/* The place that a call answers leads to the element that was spoilt. */
static void places(void) {
    is_at(0, 2, 2, 1, 0);
    is_at(1, 2, 2, 1, 1);
    is_at(2, 2, 2, 2, 0);
    is_at(3, 2, 2, 2, 1);
    is_at(4, 2, 2, 0, 0);
    is_at(2, 2, 0, 0, 0);
    is_at(0, 0, 0, 0, 0);
    is_at(UINT64_MAX, 2, 2, 0, 0);
    const PineParam param = pine_param_standard(4096, 2, 8, 16, 2, 10, 10);
    for (size_t spoilt = 0; spoilt < 4; spoilt++) {
        uint64_t rows[4] = {1, 2, 3, 4};
        rows[spoilt] = PINE_FIELD_MODULUS;
        PineAnswer answer = pine_accumulate(param, rows, 2, rows + 2, 2);
        check(answer.number == PINE_ELEMENT, "pine_accumulate takes what is no element");
        is_at(answer.place, 2, 2, 1 + spoilt / 2, spoilt % 2);
    }
}

/* A circuit that refuses has the value 0, and is not valid. */
static void validity(void) {
    const PineParam param = pine_param_standard(4096, 2, 8, 16, 2, 10, 10);
    const uint64_t row = 0;
    PineCircuit refused = pine_valid_sq_norm_equal(param, 1, &row, 0);
    check(refused.answer.number == PINE_ROW_LEN && refused.value == 0, "pine_valid_sq_norm_equal takes an empty row");
    check(!pine_is_valid(refused), "a refused circuit is valid");
    PineCircuit zero = {{0, 0}, 0, 1}, one = {{0, 0}, 1, 1};
    check(pine_is_valid(zero) && !pine_is_valid(one), "pine_is_valid reads another value");
}

/* Over Field128 a row has two words to an element, and places count elements. */
static void wide(void) {
    const PineParam param = pine_param_standard(PINE128_MAX_NORM_BOUND, 2, 0, 16, 2, 10, 10);
    check(pine128_check_param(param).number == PINE_ACCEPTED, "pine128_check_param refuses the largest norm bound");
    check(pine128_words(pine128_derive(param).pine.dimension) == 4, "pine128_words gives other words");
    for (size_t spoilt = 0; spoilt < 4; spoilt++) {
        uint64_t rows[8] = {1, 2, 3, 4, 5, 6, 7, 8};
        rows[2 * spoilt] = PINE128_FIELD_MODULUS_LOW;
        rows[2 * spoilt + 1] = PINE128_FIELD_MODULUS_HIGH;
        PineAnswer answer = pine128_accumulate(param, rows, 4, rows + 4, 4);
        check(answer.number == PINE_ELEMENT, "pine128_accumulate takes what is no element");
        is_at(answer.place, 2, 2, 1 + spoilt / 2, spoilt % 2);
        rows[2 * spoilt]--;
        answer = pine128_accumulate(param, rows, 4, rows + 4, 4);
        check(answer.number == PINE_ACCEPTED, "pine128_accumulate refuses p - 1");
    }
    PineCoordinate128 coordinate = pine128_f64_to_field(-1, 0);
    check(coordinate.element.low == 0 && coordinate.element.high == PINE128_FIELD_MODULUS_HIGH, "-1 has other words");
    PineDecoded decoded = pine128_field_to_f64(coordinate.element, 1);
    check(decoded.answer.number == PINE_ACCEPTED && decoded.value == -0.5, "-1 is decoded as another");
    PineElement128 large = {0, 1};
    check(pine128_field_to_f64(large, 0).answer.number == PINE_SIZE, "pine128_field_to_f64 takes 2^64");
    PineCircuit128 refused = {{7, 1}, {0, 0}, 0}, zero = {{0, 0}, {0, 0}, 1}, low = {{0, 0}, {1, 0}, 1}, high = {{0, 0}, {0, 1}, 1};
    check(!pine128_is_valid(refused) && pine128_is_valid(zero), "pine128_is_valid reads another answer");
    check(!pine128_is_valid(low) && !pine128_is_valid(high), "pine128_is_valid reads another value");
}

/* A key's bytes are the address and then the valve, low byte first, and adding takes it by value. */
static void keys(void) {
    static const uint8_t address[6] = {1, 2, 3, 4, 5, 6};
    const PineParam param = pine_param_standard(4096, 1, 8, 16, 2, 10, 10);
    const PineFileKey key = pine_file_key(address, 0x0807);
    uint8_t empty[PINE_FILE_HEADER_LEN], file[PINE_FILE_HEADER_LEN + PINE_FILE_ENTRY_LEN + 8];
    const uint64_t share = 9;
    PineAnswer begun = pine_file_write(param, 0, empty, 0, &share, 0, empty, sizeof empty);
    check(begun.number == PINE_ACCEPTED, "no file is begun empty");
    PineFileLen added = pine_file_add(param, key, empty, sizeof empty, &share, 1, file, sizeof file);
    check(added.answer.number == PINE_ACCEPTED && added.len == sizeof file, "no report is added");
    for (uint8_t k = 0; k < PINE_FILE_KEY_LEN; k++) {
        check(key.bytes[k] == k + 1 && file[PINE_FILE_HEADER_LEN + k] == k + 1, "a key has other bytes");
    }
    check(file[14] == 1 && file[18] == 9, "the entry is another");
}

int main(void) {
    texts();
    keys();
    places();
    validity();
    wide();
    return failed;
}
