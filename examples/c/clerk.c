/* A clerk books a small month through the keeper's C interface, and tells what was done. */
#include "keeper.h"

#include <inttypes.h>
#include <stdio.h>
#include <string.h>

enum { WORDS = 96, CUSTOMERS = 1, NONE = 0 };

/* The store, and where the open items stand: one row of amounts for each customer, under name 1. */
static uint64_t store[WORDS];

/* A place below name 1. A pointer to no subscripts must not be null, so each has an array of one. */
static const int32_t nowhere[1] = {NONE};

static const char *reason(uint32_t number)
{
    switch (number) {
    case KEEPER_GRANTED: return "done";
    case KEEPER_WRONG_COUNT: return "a keeper needs 67 words, and a saved list as many as the store";
    case KEEPER_UNKNOWN_NAME: return "names are 1 to 64";
    case KEEPER_TOO_DEEP: return "a table goes no deeper than three subscripts";
    case KEEPER_UNLABELLED: return "nothing is booked there";
    case KEEPER_WRONG_SORT: return "there is a row where a table is wanted, or a table where a row is";
    case KEEPER_OUT_OF_BOUNDS: return "there is no such element";
    case KEEPER_WRONG_TYPE: return "the row holds items of another kind";
    case KEEPER_BAD_FIELD: return "no row or table can have that base, type or depth";
    case KEEPER_BAD_LENGTH: return "the length is 0 or runs past the end";
    case KEEPER_NO_ROOM: return "there are not enough free words";
    case KEEPER_INCONSISTENT: return "the saved words do not hold together";
    default: return "no keeper answers that";
    }
}

/* Tells what a call answered. */
static void tell(const char *what, uint32_t number, uint32_t step)
{
    printf("%s:\n", what);
    if (number == KEEPER_GRANTED)
        printf("  Done.\n");
    else if (step == 0)
        printf("  Refused, number %" PRIu32 ": %s.\n", number, reason(number));
    else
        printf("  Refused, number %" PRIu32 ", at step %" PRIu32 ": %s.\n", number, step, reason(number));
}

/* A number of 64 bits, as the amount that it means in two's complement. */
static int64_t amount_of(uint64_t word)
{
    int64_t amount;
    memcpy(&amount, &word, sizeof amount);
    return amount;
}

/* Prints a customer's open items, in cents. */
static void show(int32_t customer)
{
    struct keeper_extent extent = {0, 0, 0, 0};
    uint64_t row[8] = {0};
    uint32_t step = 0;
    uint32_t number = keeper_span(store, WORDS, CUSTOMERS, &customer, 1, &extent, &step);

    if (number == KEEPER_GRANTED && extent.length == 0) {
        printf("  Customer %" PRId32 " has no open items.\n", customer);
        return;
    }
    if (number == KEEPER_GRANTED && extent.length <= 8)
        number = keeper_read_row(store, WORDS, CUSTOMERS, &customer, 1, KEEPER_AMOUNTS, (int32_t)extent.base, row,
                                 (size_t)extent.length, &step);
    if (number != KEEPER_GRANTED) {
        printf("  Customer %" PRId32 ": refused, number %" PRIu32 ".\n", customer, number);
        return;
    }
    printf("  Customer %" PRId32 " has %" PRIu64 " open items:", customer, extent.length);
    for (uint64_t k = 0; k < extent.length; k += 1)
        printf(" %" PRId64, amount_of(row[k]));
    printf("\n");
}

/* Books a customer's open items. */
static void book(int32_t customer, const int64_t *amounts, size_t n)
{
    uint64_t row[8] = {0};
    char what[80];
    uint32_t step = 0;
    uint32_t number = keeper_take(store, WORDS, CUSTOMERS, &customer, 1, n, 1, false, KEEPER_AMOUNTS, &step);

    memcpy(row, amounts, n * sizeof row[0]);
    if (number == KEEPER_GRANTED)
        number = keeper_write_row(store, WORDS, CUSTOMERS, &customer, 1, KEEPER_AMOUNTS, 1, row, n, &step);
    snprintf(what, sizeof what, "Customer %" PRId32 " owes %zu invoices", customer, n);
    tell(what, number, step);
}

static void begin(void)
{
    uint32_t step = 0;

    tell("A keeper over 66 words", keeper_make(store, 66), 0);
    tell("A keeper over 96 words", keeper_make(store, WORDS), 0);
    tell("A table for three customers, under name 1",
         keeper_take(store, WORDS, CUSTOMERS, nowhere, 0, 3, 1, true, 0, &step), step);
}

static void refusals(void)
{
    const int32_t deep[4] = {1, 1, 1, 1};
    int32_t customer = 1;
    uint64_t word = 0;
    uint32_t step = 0;
    uint32_t number;

    number = keeper_free(store, WORDS, 65, nowhere, 0, &step);
    tell("Name 65 is freed", number, step);
    number = keeper_free(store, WORDS, CUSTOMERS, deep, 4, &step);
    tell("A place four subscripts down is freed", number, step);
    number = keeper_read(store, WORDS, CUSTOMERS, &customer, 1, KEEPER_AMOUNTS, 9, &word, &step);
    tell("Invoice 9 of customer 1 is read", number, step);
    number = keeper_read(store, WORDS, CUSTOMERS, &customer, 1, KEEPER_VOUCHERS, 1, &word, &step);
    tell("Invoice 1 of customer 1 is read as a voucher", number, step);
    customer = 4;
    number = keeper_take(store, WORDS, CUSTOMERS, &customer, 1, 1, 1, false, KEEPER_AMOUNTS, &step);
    tell("Customer 4 owes an invoice", number, step);
    customer = 3;
    number = keeper_take(store, WORDS, CUSTOMERS, &customer, 1, 40, 1, false, KEEPER_AMOUNTS, &step);
    tell("Customer 3 owes 40 invoices", number, step);
}

static void month(void)
{
    const int64_t first[4] = {11900, 5950, -2000, 875};
    const int64_t second[2] = {100, 200};
    int32_t customer = 1;
    uint32_t step = 0;
    uint32_t number;

    book(1, first, 4);
    book(2, second, 2);
    printf("  %" PRIu64 " words are free.\n", keeper_total(store, WORDS));
    refusals();
    number = keeper_insert(store, WORDS, CUSTOMERS, &customer, 1, 3, 2, &step);
    tell("Two invoices come in before the third of customer 1", number, step);
    number = keeper_write(store, WORDS, CUSTOMERS, &customer, 1, KEEPER_AMOUNTS, 3, 4200, &step);
    tell("The first of them is of 4200 cents", number, step);
    show(1);
    number = keeper_delete(store, WORDS, CUSTOMERS, &customer, 1, 4, 2, &step);
    tell("The fourth and fifth are settled", number, step);
    show(1);
    number = keeper_exchange(store, WORDS, CUSTOMERS, nowhere, 0, 1, 2, &step);
    tell("Customers 1 and 2 change places", number, step);
    show(1);
    show(2);
    show(3);
}

static void carry_over(void)
{
    static uint64_t saved[WORDS];
    static uint8_t bytes[8 * WORDS];
    const int32_t customer = 2;
    uint64_t word = 0;
    uint32_t step = 0;
    uint32_t number;

    tell("The month is saved", keeper_save(store, WORDS, saved, WORDS), 0);
    tell("A second house loads it into bytes", keeper_bytes_load(bytes, sizeof bytes, saved, WORDS), 0);
    number = keeper_bytes_read(bytes, sizeof bytes, CUSTOMERS, &customer, 1, KEEPER_AMOUNTS, 3, &word, &step);
    tell("It reads invoice 3 of customer 2", number, step);
    printf("  It is of %" PRId64 " cents.\n", amount_of(word));
    saved[0] += 1;
    tell("A damaged copy is loaded", keeper_bytes_load(bytes, sizeof bytes, saved, WORDS), 0);
}

int main(void)
{
    begin();
    month();
    carry_over();
    return 0;
}
