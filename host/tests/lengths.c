/* Slices of no bytes, lent as NULL; and of pairs and their answers every length that a call takes, among others. */
#include <stdbool.h>
#include <string.h>

#include "check.h"
#include "pastrulow.h"

/* Room for lengths which only by their low 16 bits are a call's. */
enum { PAIRS_ROOM = 65536 + 64, ANSWERS_ROOM = 2 * PAIRS_ROOM, UNWRITTEN = 0xa5 };

static uint8_t image[PASTRULOW_IMAGE_BYTES], answer[PASTRULOW_ANSWER_BYTES];
static uint8_t pairs[PAIRS_ROOM], answers[ANSWERS_ROOM];

static void no_answer(void)
{
    check("start", pastrulow_start(image, sizeof image, 40, NULL, 0), 1);
    check("start_with", pastrulow_start_with(image, sizeof image, 40, 0, NULL, 0), 1);
    check("translate", pastrulow_translate(image, sizeof image, NULL, 0, NULL, 0, 0, 0, 0, NULL, 0), 1);
    check("INVLPG", pastrulow_invlpg(image, sizeof image, 0, NULL, 0), 1);
    check("INVPCID", pastrulow_invpcid(image, sizeof image, 0, 0, 0, NULL, 0), 1);
    check("CR3 write", pastrulow_write_cr3(image, sizeof image, 0, NULL, 0), 1);
    check("mode write", pastrulow_write_mode(image, sizeof image, 0, NULL, 0), 1);
}

static void no_image(void)
{
    check("start", pastrulow_start(NULL, 0, 40, answer, sizeof answer), 2);
    check("start_with", pastrulow_start_with(NULL, 0, 40, 0, answer, sizeof answer), 2);
    check("translate", pastrulow_translate(NULL, 0, NULL, 0, NULL, 0, 0, 0, 0, answer, sizeof answer), 2);
    check("INVLPG", pastrulow_invlpg(NULL, 0, 0, answer, sizeof answer), 2);
    check("INVPCID", pastrulow_invpcid(NULL, 0, 0, 0, 0, answer, sizeof answer), 2);
    check("CR3 write", pastrulow_write_cr3(NULL, 0, 0, answer, sizeof answer), 2);
    check("mode write", pastrulow_write_mode(NULL, 0, 0, answer, sizeof answer), 2);
}

/* With no guest memory every entry reads as all ones: reserved at level 4, by bit 7. */
static void no_memory(void)
{
    check("start", pastrulow_start(image, sizeof image, 52, answer, sizeof answer), 0);
    check("mode write", pastrulow_write_mode(image, sizeof image, PASTRULOW_PG | PASTRULOW_NXE, answer, sizeof answer), 0);
    check("translate", pastrulow_translate(image, sizeof image, NULL, 0, NULL, 0, PASTRULOW_READ, 0, 0, answer, sizeof answer),
          0);
    struct pastrulow_answer fault = pastrulow_read_answer(answer);
    check("kind", fault.kind, PASTRULOW_FAULT);
    check("value", fault.value, PASTRULOW_CODE_PRESENT | PASTRULOW_CODE_RESERVED);
    check("size", fault.size, 0);
    check("read", fault.read, 1);
}

static void no_pairs(void)
{
    size_t length = sizeof image;
    check("no pairs", pastrulow_translate_many(image, length, NULL, 0, NULL, 0, NULL, 0, NULL, 0), 0);
    check("no pairs, no image", pastrulow_translate_many(NULL, 0, NULL, 0, NULL, 0, NULL, 0, NULL, 0), 0);
    check("no pairs, ragged low", pastrulow_translate_many(image, length, answer, 1, NULL, 0, NULL, 0, NULL, 0), 0);
    check("no pairs, ragged high", pastrulow_translate_many(image, length, NULL, 0, answer, 1, NULL, 0, NULL, 0), 0);
    check("no pairs, an answer", pastrulow_translate_many(image, length, NULL, 0, NULL, 0, NULL, 0, answer, 32), 10);
    check("a pair, no answer", pastrulow_translate_many(image, length, NULL, 0, NULL, 0, pairs, 16, NULL, 0), 10);
    check("a pair, no answer, no image", pastrulow_translate_many(NULL, 0, NULL, 0, NULL, 0, pairs, 16, NULL, 0), 10);
    check("a pair, no image", pastrulow_translate_many(NULL, 0, NULL, 0, NULL, 0, pairs, 16, answer, sizeof answer), 0);
    check("kind", pastrulow_read_answer(answer).kind, PASTRULOW_REFUSED);
    check("value", pastrulow_read_answer(answer).value, 2);
}

static bool unwritten(size_t from, size_t end)
{
    while (from < end && answers[from] == UNWRITTEN)
        from++;
    return from == end;
}

/* One call with so many bytes of pairs, which are all zero, and of answers. With no guest memory each pair is a fault. */
static void lend_many(size_t pairs_len, size_t answers_len)
{
    bool taken = pairs_len % 16 == 0 && pairs_len <= 1024 && answers_len == 2 * pairs_len;
    size_t written = taken ? answers_len : 0;
    memset(answers, UNWRITTEN, answers_len + 32);
    uint64_t refusal =
        pastrulow_translate_many(image, sizeof image, NULL, 0, NULL, 0, pairs, pairs_len, answers, answers_len);
    check("translate many", refusal, taken ? 0 : 10);
    check("bytes that are no record's", unwritten(written, answers_len + 32), true);
    if (written > 0)
        check("the last record", pastrulow_read_answer(answers + written - 32).kind, PASTRULOW_FAULT);
}

/* Answers of every length for this many pairs. */
static void lend_answers(size_t count)
{
    for (size_t length = 0; length <= 32 * 66; length++)
        lend_many(16 * count, length);
}

/* Lengths that are taken if they are cut off to fewer bits. */
static void lend_far_more(size_t bytes)
{
    lend_many(bytes, 0);
    lend_many(bytes, 2 * bytes);
    lend_many(bytes + 16, 32);
    lend_many(bytes + 16, 2 * (bytes + 16));
    lend_many(16, bytes + 32);
}

static void lend_pairs(void)
{
    for (size_t length = 0; length <= 16 * 66; length++) {
        lend_many(length, 2 * length);
        lend_many(length, 32 * (length / 16));
    }
    lend_answers(0);
    lend_answers(1);
    lend_answers(2);
    lend_answers(63);
    lend_answers(64);
    lend_answers(65);
    lend_far_more(256);
    lend_far_more(4096);
    lend_far_more(8192);
    lend_far_more(65536);
}

static void no_journal(void)
{
    check("clear", pastrulow_journal_clear(NULL, 0), 9);
    check("report", pastrulow_journal_report(NULL, 0, 0, 0, 0), 9);
}

int main(void)
{
    no_answer();
    no_image();
    no_memory();
    no_pairs();
    lend_pairs();
    no_journal();
    return checked("lengths");
}
