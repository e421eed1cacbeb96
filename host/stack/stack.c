/* How much stack each call takes. A call runs on a stack of its own that is
 * filled with a mark before; how far the mark is gone afterwards is how deep the
 * call went. It prints a line for each call: its name and the bytes. For a tray
 * it is the most over the trays that ask for most work: in each of the rounds 1
 * to 5 a frame from 63 others, with lists of 64 numbers in rosters and turns. These
 * are all different but for the first, which all list: with a candidate the
 * controller does not decide before the last tray.
 */
#define _XOPEN_SOURCE 700
#include <stdint.h>
#include <stdio.h>
#include <string.h>
#include <ucontext.h>

#include "controller.h"

enum { CALLS = 11, OTHERS = 63, LIST = 64, ROUNDS = 5, STACK = 1 << 20, MARK = 0xA5 };

static uint8_t image[CONTROLLER_IMAGE_LEN], out[CONTROLLER_FRAME_LEN], tray[CONTROLLER_TRAY_LEN];
static uint8_t stack[STACK];
static size_t tray_len, length;
static uint32_t answer;
static ucontext_t here, there;

static void put(size_t at, uint32_t value, int bytes)
{
    for (int i = bytes - 1; i >= 0; i--, value >>= 8)
        tray[at + (size_t)i] = (uint8_t)value;
}

/* A tray with a frame from each other one; in the first five rounds the kind is
 * the round. */
static void pack(uint32_t round)
{
    uint32_t count = round == 2 || round == 5 ? LIST : 0;
    size_t at = 8 + 8 * OTHERS;
    put(0, round, 4);
    put(4, OTHERS, 2);
    put(6, 0, 2);
    for (uint32_t i = 0; i < OTHERS; i++) {
        put(8 + 8 * i, 2 + i, 4);
        put(12 + 8 * i, (uint32_t)at, 2);
        put(14 + 8 * i, 8 + 4 * count, 2);
        put(at, round, 4);
        put(at + 4, round, 1);
        put(at + 5, round <= 2 ? 2 : i % 2, 1);
        put(at + 6, count, 2);
        for (uint32_t k = 0; k < count; k++)
            put(at + 8 + 4 * k, k == 0 ? 1 : 1 + k * OTHERS + i, 4);
        at += 8 + 4 * count;
    }
    tray_len = at;
}

static void start(void)
{
    answer = controller_start(1, 1, image, sizeof image, out, sizeof out, &length);
}

static void work(void)
{
    answer = controller_tray(image, sizeof image, tray, tray_len, out, sizeof out, &length);
}

/* The longest frame of the last tray, which is one of round 5. */
static void frame(void) { answer = controller_frame(tray + 8 + 8 * OTHERS, 8 + 4 * LIST, ROUNDS); }
static void decision(void) { answer = controller_decision(image, sizeof image); }
static void round_sent(void) { answer = controller_round(image, sizeof image); }
static void king(void) { answer = controller_king(image, sizeof image); }
static void heard(void) { answer = controller_heard(image, sizeof image); }
static void candidates(void) { answer = controller_candidates(image, sizeof image); }
static void echoes(void) { answer = controller_echoes(image, sizeof image); }

/* For the last of the 64 that are heard. */
static void heard_number(void) { answer = controller_heard_number(image, sizeof image, OTHERS); }
static void first_round(void) { answer = controller_first_round(image, sizeof image, OTHERS); }

/* Runs the call on the marked stack; how many bytes of it were written. */
static size_t depth(void (*call)(void))
{
    memset(stack, MARK, sizeof stack);
    getcontext(&there);
    there.uc_stack.ss_sp = stack;
    there.uc_stack.ss_size = sizeof stack;
    there.uc_link = &here;
    makecontext(&there, call, 0);
    swapcontext(&here, &there);
    size_t i = 0;
    while (i < sizeof stack && stack[i] == MARK)
        i++;
    return sizeof stack - i;
}

/* The most that a call of each round takes; 0 if one is refused. */
static size_t most_of_trays(void)
{
    size_t most = 0;
    for (uint32_t round = 1; round <= ROUNDS; round++) {
        pack(round);
        size_t bytes = depth(work);
        most = bytes > most ? bytes : most;
        if (answer != CONTROLLER_WORKED)
            return 0;
    }
    return most;
}

int main(void)
{
    size_t bytes[CALLS];
    /* The second time, so that no call is the first to look a library's function
     * up, which would count. */
    for (int time = 0; time < 2; time++) {
        bytes[0] = depth(start);
        bytes[1] = most_of_trays();
        bytes[2] = depth(frame);
        bytes[3] = depth(decision);
        bytes[4] = depth(round_sent);
        bytes[5] = depth(king);
        bytes[6] = depth(heard);
        bytes[7] = depth(candidates);
        bytes[8] = depth(echoes);
        bytes[9] = depth(heard_number);
        bytes[10] = depth(first_round);
    }
    static const char *const names[CALLS] = {"start", "tray", "frame", "decision", "round", "king", "heard",
                                             "candidates", "echoes", "heard_number", "first_round"};
    for (int i = 0; i < CALLS; i++)
        printf("controller_%s %zu\n", names[i], bytes[i]);
    return 0;
}
