/* The calls of the library beside their oracles. */
#include "calls.h"
#include <string.h>
#include "balance.h"
#include "fault.h"
#include "pulling.h"
#include "rules.h"

typeof(sv_step) plain_step;
typeof(sv_play_block) plain_block;

surplus_tally surpluses;
mended_tally mended;

/* A second set of strings and contact variables, for steps that are made on a copy. */
static lent copied_first, copied_second, copied_contact;

void calls_open(void)
{
    lent_open(&copied_first, "first, copied", sizeof(int32_t));
    lent_open(&copied_second, "second, copied", sizeof(int32_t));
    lent_open(&copied_contact, "contact, copied", sizeof(int32_t));
}

void voice_agrees(const voice *v)
{
    lent_agree(v->heights);
    lent_agree(v->stiffness);
    lent_agree(v->first);
    lent_agree(v->second);
    lent_agree(v->contact);
}

uint32_t call_check_setup(sv_setup setup)
{
    begin(CHECK_SETUP, setup);
    uint32_t answered = sv_check_setup(setup);
    same_refusal(answered, rule_check_setup(setup));
    return answered;
}

/* Calls a bend or a slide; later calls on the voice get the setup that it answers. */
static uint32_t change_by(typeof(sv_bend) *change, typeof(sv_bend) *rule, voice *v, uint32_t value, unsigned long long *of_mended)
{
    sv_changed answered = change(v->setup, value), expected = rule(v->setup, value);
    same_refusal(answered.refusal, expected.refusal);
    same_setup(answered.setup, expected.setup);
    *of_mended += answered.refusal == 0 && rule_check_setup(v->setup) != 0;
    v->setup = answered.setup;
    return answered.refusal;
}

uint32_t call_bend(voice *v, uint32_t tension)
{
    begin(BEND, v->setup);
    return change_by(sv_bend, rule_bend, v, tension, &mended.bends);
}

uint32_t call_slide(voice *v, uint32_t place)
{
    begin(SLIDE, v->setup);
    return change_by(sv_slide, rule_slide, v, place, &mended.slides);
}

static uint32_t lay_by(typeof(sv_lay_neck) *lay_neck, side whose, sv_setup setup, const neck_plan *plan, lent *heights, lent *stiffness)
{
    return lay_neck(setup, shown(whose, plan->board), plan->board->length, plan->board_stiffness, shown(whose, plan->frets), plan->frets->length, plan->tip,
                    plan->fret_stiffness, given(whose, heights), heights->length, given(whose, stiffness), stiffness->length);
}

uint32_t call_lay_neck(sv_setup setup, const neck_plan *plan, lent *heights, lent *stiffness)
{
    begin(LAY_NECK, setup);
    uint32_t answered = lay_by(sv_lay_neck, LIBRARY, setup, plan, heights, stiffness);
    same_refusal(answered, lay_by(rule_lay_neck, ORACLE, setup, plan, heights, stiffness));
    lent_agree(plan->board);
    lent_agree(plan->frets);
    lent_agree(heights);
    lent_agree(stiffness);
    return answered;
}

static sv_started start_by(typeof(sv_fresh_start) *fresh_start, side whose, const voice *v, int32_t height, int32_t older_height)
{
    return fresh_start(v->setup, given(whose, v->first), v->first->length, given(whose, v->second), v->second->length, given(whose, v->contact),
                       v->contact->length, height, older_height);
}

uint32_t call_fresh_start(voice *v, int32_t height, int32_t older_height)
{
    begin(FRESH_START, v->setup);
    sv_started answered = start_by(sv_fresh_start, LIBRARY, v, height, older_height), expected = start_by(rule_fresh_start, ORACLE, v, height, older_height);
    same_refusal(answered.refusal, expected.refusal);
    same("turn", answered.turn, expected.turn);
    same_finger(answered.finger, expected.finger);
    same_book(answered.book, expected.book);
    lent_agree(v->first);
    lent_agree(v->second);
    lent_agree(v->contact);
    v->turn = answered.turn;
    v->finger = answered.finger;
    v->book = answered.book;
    return answered.refusal;
}

void call_newest(uint32_t turn)
{
    begin(NEWEST, (sv_setup){0});
    same("newest", sv_newest(turn), rule_newest(turn));
    same_refusal(0, 0);
}

static sv_reading read_by(typeof(sv_read_place) *read_place, side whose, const voice *v, uint32_t place)
{
    return read_place(v->setup, shown(whose, v->heights), v->heights->length, shown(whose, v->first), v->first->length, shown(whose, v->second),
                      v->second->length, v->turn, place);
}

uint32_t call_read_place(const voice *v, uint32_t place)
{
    begin(READ_PLACE, v->setup);
    sv_reading answered = read_by(sv_read_place, LIBRARY, v, place), expected = read_by(rule_read_place, ORACLE, v, place);
    same_refusal(answered.refusal, expected.refusal);
    same("pressed", answered.pressed, expected.pressed);
    same_bits("displacement", &answered.displacement, &expected.displacement, sizeof expected.displacement);
    same_bits("depth", &answered.depth, &expected.depth, sizeof expected.depth);
    lent_agree(v->heights);
    lent_agree(v->first);
    lent_agree(v->second);
    return answered.refusal;
}

voice_state state_of(const voice *v)
{
    const lent *newer = v->turn == 0 ? v->first : v->second, *older = v->turn == 0 ? v->second : v->first;
    return (voice_state){lent_numbers(newer), lent_numbers(older), lent_numbers(v->contact), v->finger};
}

given_step step_given(const voice *v, int32_t pluck, int32_t finger_force)
{
    return (given_step){v->setup, lent_numbers(v->heights), lent_numbers(v->stiffness), state_of(v), pluck, finger_force};
}

typedef struct {
    int32_t newer[127], older[127], contact[127];
} kept;

/* How many bytes of a buffer are kept: of longer ones, which no step accepts, as much as there is room for. */
static size_t kept_bytes(const lent *buffer) { return (buffer->length < 127 ? buffer->length : 127) * sizeof(int32_t); }

/* The same state out of reach of the library. */
static voice_state kept_state_of(const voice *v, kept *k)
{
    voice_state state = state_of(v);
    memcpy(k->newer, state.newer, kept_bytes(v->turn == 0 ? v->first : v->second));
    memcpy(k->older, state.older, kept_bytes(v->turn == 0 ? v->second : v->first));
    memcpy(k->contact, state.contact, kept_bytes(v->contact));
    return (voice_state){k->newer, k->older, k->contact, v->finger};
}

/* A refused step leaves the state, whatever its oracle has to say; nor are contact variables cleared. */
static void state_left(const voice *v, const voice_state *before)
{
    const lent *newer = v->turn == 0 ? v->first : v->second, *older = v->turn == 0 ? v->second : v->first;
    if (memcmp(lent_numbers(newer), before->newer, kept_bytes(newer)) || memcmp(lent_numbers(older), before->older, kept_bytes(older))
        || memcmp(lent_numbers(v->contact), before->contact, kept_bytes(v->contact)))
        fault("a refused step changed a buffer");
    same_finger(v->finger, before->finger);
}

/* A step that was judged by its moves: its answer, and what it did if it was accepted. */
static void check_moves(const voice *v, voice_state before, int32_t pluck, int32_t finger_force, uint32_t refusal)
{
    made_step made = {step_given(v, pluck, finger_force), state_of(v)};
    equations last;
    made.given.before = before;
    work_out(&last, &made.given);
    const char *wrong = pulling_fault(&made.given, &last, refusal);
    if (!wrong && refusal == 0)
        wrong = balance_fault(&made, &last);
    if (wrong)
        fault("%s", wrong);
}

static sv_stepped step_by(typeof(sv_step) *make_step, side whose, const voice *v, int32_t pluck, int32_t finger_force)
{
    return make_step(v->setup, shown(whose, v->heights), v->heights->length, shown(whose, v->stiffness), v->stiffness->length, given(whose, v->first),
                     v->first->length, given(whose, v->second), v->second->length, given(whose, v->contact), v->contact->length, v->turn, v->finger, pluck,
                     finger_force);
}

uint32_t call_step(voice *v, int32_t pluck, int32_t finger_force, sv_frame *frame)
{
    kept k;
    voice_state before = kept_state_of(v, &k);
    begin(STEP, v->setup);
    sv_stepped answered = step_by(sv_step, LIBRARY, v, pluck, finger_force), expected = step_by(plain_step, ORACLE, v, pluck, finger_force);
    same_refusal(answered.refusal, expected.refusal);
    same("turn", answered.turn, expected.turn);
    same_finger(answered.finger, expected.finger);
    same_frame(answered.frame, expected.frame);
    voice_agrees(v);
    if (answered.refusal)
        same("turn after a refusal", answered.turn, v->turn);
    v->turn = answered.turn;
    v->finger = answered.finger;
    *frame = answered.frame;
    if (answered.refusal)
        state_left(v, &before);
    if (answered.refusal == 0 || answered.refusal == 13 || answered.refusal == 14)
        check_moves(v, before, pluck, finger_force, answered.refusal);
    return answered.refusal;
}

voice copied(const voice *v)
{
    voice copy = *v;
    copy.first = &copied_first;
    copy.second = &copied_second;
    copy.contact = &copied_contact;
    lent_copy(copy.first, v->first);
    lent_copy(copy.second, v->second);
    lent_copy(copy.contact, v->contact);
    return copy;
}

uint32_t call_step_on_copy(const voice *v, int32_t pluck, int32_t finger_force)
{
    voice copy = copied(v);
    sv_frame frame;
    return call_step(&copy, pluck, finger_force, &frame);
}

uint32_t refusal_by_oracle(const voice *v, int32_t pluck, int32_t finger_force)
{
    voice copy = copied(v);
    return step_by(plain_step, ORACLE, &copy, pluck, finger_force).refusal;
}

static sv_played block_by(typeof(sv_play_block) *play_block, side whose, const voice *v, const lent *forces, const lent *samples)
{
    return play_block(v->setup, shown(whose, v->heights), v->heights->length, shown(whose, v->stiffness), v->stiffness->length, given(whose, v->first),
                      v->first->length, given(whose, v->second), v->second->length, given(whose, v->contact), v->contact->length, v->turn, v->finger,
                      shown(whose, forces), forces->length, given(whose, samples), samples->length);
}

/* The steps of a block that was begun, made one by one on a copy: what they come to, and the step that was refused, must be the block's. */
static void step_by_step(voice *copy, const voice *v, const sv_played *played, const lent *forces, const lent *samples)
{
    const int32_t *force = lent_numbers(forces);
    const float *sample = lent_numbers(samples);
    sv_frame frame;
    for (size_t i = 0; i < played->count; i++) {
        same("the refusal of a block's single step", call_step(copy, force[2 * i], force[2 * i + 1], &frame), 0);
        same_bits("the frame's bridge beside the block's", &frame.bridge, &sample[2 * i], sizeof frame.bridge);
        same_bits("the frame's neck beside the block's", &frame.neck, &sample[2 * i + 1], sizeof frame.neck);
    }
    if (played->refusal) {
        size_t i = 2 * played->count;
        same("the refusal of a block's last step", call_step(copy, force[i], force[i + 1], &frame), played->refusal);
    }
    same("the single steps' turn beside the block's", copy->turn, v->turn);
    same_finger(copy->finger, v->finger);
    size_t bytes = v->first->length * sizeof(int32_t);
    if (memcmp(lent_numbers(copy->first), lent_numbers(v->first), bytes) || memcmp(lent_numbers(copy->second), lent_numbers(v->second), bytes)
        || memcmp(lent_numbers(copy->contact), lent_numbers(v->contact), bytes))
        fault("the buffers after a block's single steps are not those after the block");
}

/* The samples past the last frame made must hold what they held before the call, where they fit a page. */
static void same_behind(const float *before, const lent *samples, size_t count)
{
    const float *sample = lent_numbers(samples);
    if (samples->length <= PAGE / sizeof *sample)
        for (size_t i = 2 * count; i < samples->length; i++)
            same_bits("a sample past the last frame made", &sample[i], &before[i], sizeof *sample);
}

static void count_surplus(size_t surplus, uint32_t refusal)
{
    surpluses.odd += surplus % 2 == 1;
    surpluses.even += surplus > 0 && surplus % 2 == 0;
    surpluses.stopped += surplus > 0 && refusal != 0;
}

uint32_t call_play_block(voice *v, lent *forces, lent *samples)
{
    voice copy = copied(v);
    float before[PAGE / sizeof(float)];
    memcpy(before, samples->page, PAGE);
    begin(PLAY_BLOCK, v->setup);
    sv_played answered = block_by(sv_play_block, LIBRARY, v, forces, samples), expected = block_by(plain_block, ORACLE, v, forces, samples);
    same_refusal(answered.refusal, expected.refusal);
    same("count", (long long)answered.count, (long long)expected.count);
    same("turn", answered.turn, expected.turn);
    same_finger(answered.finger, expected.finger);
    voice_agrees(v);
    lent_agree(forces);
    lent_agree(samples);
    same_behind(before + samples->start / sizeof *before, samples, answered.count);
    v->turn = answered.turn;
    v->finger = answered.finger;
    if (answered.refusal == 0 || answered.refusal == 12 || answered.refusal == 13 || answered.refusal == 14) {
        count_surplus(samples->length - forces->length, answered.refusal);
        step_by_step(&copy, v, &answered, forces, samples);
    }
    return answered.refusal;
}
