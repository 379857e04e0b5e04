#include "live_damage.h"

#include "live_doctor.h"

const char *const damage_names[DAMAGES] = {"bits", "bytes", "head", "plan", "channel", "task", "parent",
                                           "ready set", "table", "letter", "length", "just outside", "within the limits"};

static void put(uint8_t *p, uint32_t bytes, uint64_t n)
{
    for (uint32_t i = 0; i < bytes; i++)
        p[i] = (uint8_t)(n >> 8 * i);
}

/* A number near a limit of some field, or any. */
static uint32_t edge(struct random *r)
{
    static const uint32_t edges[] = {0, 1, 2, 5, 6, 7, 63, 64, 65, 127, 128, 129, 255, 256, 257, 9998, 9999, 10000, 65535};
    uint32_t count = sizeof edges / sizeof edges[0];
    return random_chance(r, 70) ? edges[random_below(r, count)] : random_below(r, 65536);
}

/* A field of so many bytes becomes something near a limit, of its lowest bytes. */
static void wrong_field(struct random *r, uint8_t *p, uint32_t bytes)
{
    uint64_t n = edge(r);
    if (bytes == 8)
        n = random_chance(r, 50) ? (uint64_t)1 << random_below(r, 64) : random_next(r);
    put(p, bytes, n);
}

static void flip_bits(struct random *r, uint8_t *image)
{
    for (uint32_t n = random_from(r, 1, 3); n > 0; n--)
        image[random_below(r, IMAGE_BYTES)] ^= (uint8_t)(1u << random_below(r, 8));
}

/* A byte that is not zero becomes another: few are behind the plan. */
static void wrong_bytes(struct random *r, uint8_t *image)
{
    uint32_t at = random_below(r, IMAGE_BYTES);
    for (uint32_t i = 0; i < IMAGE_BYTES && image[at] == 0; i++)
        at = (at + 1) % IMAGE_BYTES;
    image[at] = (uint8_t)(random_chance(r, 50) ? random_below(r, 256) : image[at] + random_from(r, 0, 2) - 1);
}

static void wrong_head(struct random *r, uint8_t *image)
{
    switch (random_below(r, 6)) {
    case 0:
        image[IMAGE_VERSION + random_below(r, 4)] = (uint8_t)(random_chance(r, 50) ? '2' : random_below(r, 256));
        break;
    case 1:
        put(image + IMAGE_PLAN_LENGTH, 4, random_chance(r, 50) ? (uint32_t)random_next(r) : edge(r));
        break;
    case 2:
        put(image + IMAGE_LETTERS, 4, random_chance(r, 20) ? (uint32_t)random_next(r) : random_below(r, 258));
        break;
    case 3:
        image[IMAGE_DESKS] = (uint8_t)random_below(r, 9);
        break;
    case 4:
        image[IMAGE_ZERO] = (uint8_t)random_below(r, 256);
        break;
    default:
        image[IMAGE_CHOSEN + random_below(r, MAX_DESKS)] = (uint8_t)edge(r);
        break;
    }
}

/* A byte of the plan, or behind it. */
static void wrong_plan(struct random *r, uint8_t *image)
{
    uint32_t length = sim_u16(image + IMAGE_PLAN_LENGTH);
    uint32_t at = random_chance(r, 80) ? random_below(r, length) : random_below(r, MAX_PLAN);
    image[IMAGE_PLAN + at] = (uint8_t)(random_chance(r, 50) ? random_below(r, 9) : edge(r));
}

/* Fields of a word of 8 bytes: where they are, and how long. */
static void wrong_channel(struct random *r, uint8_t *image)
{
    static const uint8_t fields[][2] = {{0, 2}, {2, 1}, {3, 1}, {4, 1}, {5, 1}, {6, 1}, {7, 1}};
    uint32_t f = random_below(r, 7);
    wrong_field(r, image + IMAGE_CHANNEL_WORDS + 8 * random_below(r, MAX_CHANNELS) + fields[f][0], fields[f][1]);
}

/* A task of the rig more often than an unused one. */
static uint32_t any_task(struct random *r, const uint8_t *image)
{
    uint32_t tasks = sim_u16(image + IMAGE_PLAN);
    return random_below(r, random_chance(r, 80) && tasks <= MAX_TASKS ? tasks : MAX_TASKS);
}

static void wrong_task(struct random *r, uint8_t *image)
{
    static const uint8_t fields[][2] = {{0, 1}, {1, 1}, {2, 1}, {3, 1}, {4, 2}, {6, 2}, {8, 8}};
    uint32_t t = any_task(r, image), f = random_below(r, 8);
    if (f == 7)
        wrong_field(r, image + IMAGE_WORDS + 8 * t, 8);
    else if (f == 0)
        image[IMAGE_TASK_WORDS + 16 * t] = (uint8_t)(random_below(r, 9) + (random_chance(r, 30) ? 128 : 0));
    else
        wrong_field(r, image + IMAGE_TASK_WORDS + 16 * t + fields[f][0], fields[f][1]);
}

static void wrong_parent(struct random *r, uint8_t *image)
{
    static const uint8_t fields[][2] = {{0, 2}, {2, 1}, {3, 1}, {7, 1}, {8, 8}};
    uint32_t f = random_below(r, 5), entry = MAX_TASKS * random_below(r, MAX_DESKS) + any_task(r, image);
    wrong_field(r, image + IMAGE_PARENTS + 16 * entry + fields[f][0], fields[f][1]);
}

static void wrong_set(struct random *r, uint8_t *image)
{
    image[IMAGE_READY + 8 * random_below(r, MAX_DESKS) + random_below(r, 8)] ^= (uint8_t)(1u << random_below(r, 8));
}

/* An entry of desk and channel, in one table or, so that it may be right, in both that belong together. */
static void wrong_table(struct random *r, uint8_t *image)
{
    uint32_t entry = random_below(r, MAX_DESKS * MAX_CHANNELS), way = random_below(r, 7);
    if (way == 0 || way == 5)
        image[IMAGE_POINTER_DESKS + entry] = (uint8_t)random_below(r, 8);
    if (way == 1 || way == 5)
        put(image + IMAGE_POINTER_COUNTS + 2 * entry, 2, edge(r));
    if (way == 2 || way == 6)
        image[IMAGE_HELD_DESKS + entry] = (uint8_t)random_below(r, 8);
    if (way == 3 || way == 6)
        image[IMAGE_HELD_NUMBERS + entry] = (uint8_t)random_below(r, 67);
    if (way == 4)
        image[IMAGE_ADVERTS + entry] = (uint8_t)random_below(r, 8);
}

/* A field of a letter; or of a slot behind the last. */
static void wrong_letter(struct random *r, uint8_t *image)
{
    static const uint8_t fields[][2] = {{1, 1}, {2, 1}, {3, 1}, {4, 1}, {5, 1}, {6, 2}, {8, 8}};
    uint32_t letters = sim_u16(image + IMAGE_LETTERS), f = random_below(r, 8);
    uint32_t at = letters > 0 && random_chance(r, 85) ? random_below(r, letters) : random_below(r, MAX_MAIL);
    uint8_t *p = image + IMAGE_MAIL + 16 * at;
    if (f == 7)
        p[0] = (uint8_t)random_below(r, 9);
    else if (f < 2 && random_chance(r, 70))
        p[1 + f] = (uint8_t)random_below(r, 9);
    else
        wrong_field(r, p + fields[f][0], fields[f][1]);
}

static void wrong_length(struct random *r, struct live *live)
{
    uint32_t way = random_below(r, 3);
    live->length = way == 0 ? random_below(r, 64) : way == 1 ? IMAGE_BYTES - random_from(r, 1, 64) : random_below(r, IMAGE_BYTES);
}

void damage_image(struct random *r, uint32_t kind, struct live *live)
{
    static void (*const damages[DAMAGES])(struct random *, uint8_t *) = {
        flip_bits, wrong_bytes, wrong_head, wrong_plan, wrong_channel, wrong_task, wrong_parent, wrong_set, wrong_table,
        wrong_letter, NULL, overstep_image, doctor_image};
    if (damages[kind] == NULL)
        wrong_length(r, live);
    else
        damages[kind](r, live->image);
}
