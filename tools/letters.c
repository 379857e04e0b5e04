#include "letters.h"

static const char *const kinds[] = {"", "offer", "advert", "call", "word", "ended", "mover"};

uint8_t letter_kind(const struct word *word)
{
    for (uint8_t kind = OFFER; kind <= MOVER; kind++)
        if (word_is(word, kinds[kind]))
            return kind;
    return 0;
}

const char *kind_name(uint8_t kind)
{
    return kinds[kind];
}

static bool is_wanted(const struct sim_letter *letter, const struct wanted *wanted)
{
    return letter->kind == wanted->kind && letter->subject == wanted->subject
        && (wanted->number == 0 || (letter->kind == OFFER && letter->number == wanted->number))
        && (wanted->desk == 0 || letter->desk == wanted->desk);
}

uint32_t letter_position(const struct sim_rig *rig, const struct wanted *wanted)
{
    for (uint32_t i = 0; i < rig->letters; i++)
        if (is_wanted(&rig->mail[i], wanted))
            return i + 1;
    return 0;
}

static void put_subject(struct text *to, const struct names *names, const struct sim_letter *letter)
{
    if (letter->kind == ENDED || letter->kind == MOVER)
        put_task_name(to, names, letter->subject);
    else
        put_channel_name(to, names, letter->subject);
}

void put_wanted(struct text *to, const struct names *names, const struct sim_rig *rig, uint32_t position)
{
    if (position == 0 || position > rig->letters) {
        text_put(to, "%u", position);
        return;
    }
    const struct sim_letter *letter = &rig->mail[position - 1];
    for (uint32_t more = 0; more < 4; more++) {
        struct wanted wanted = {letter->kind, letter->subject, (more & 2) != 0 ? letter->number : 0,
                                (more & 1) != 0 ? letter->desk : 0};
        if (letter_position(rig, &wanted) != position)
            continue;
        text_put(to, "%s ", kinds[letter->kind]);
        put_subject(to, names, letter);
        if (wanted.number != 0)
            text_put(to, " number %u", wanted.number);
        if (wanted.desk != 0)
            text_put(to, " to %u", wanted.desk);
        return;
    }
    text_put(to, "%u", position);
}

void put_letter(struct text *to, const struct names *names, const struct sim_letter *letter)
{
    switch (letter->kind) {
    case OFFER:
        text_put(to, "offer %u on ", letter->number);
        break;
    case WORD:
        text_put(to, "word %u %u %u %u on ", letter->word.level[0], letter->word.level[1], letter->word.level[2],
                 letter->word.level[3]);
        break;
    case MOVER:
        text_put(to, "mover of ");
        break;
    case ENDED:
        text_put(to, "ended, ");
        break;
    default:
        text_put(to, "%s on ", kinds[letter->kind]);
        break;
    }
    if (letter->kind == ENDED || letter->kind == MOVER)
        put_task(to, names, letter->subject);
    else
        put_channel(to, names, letter->subject);
    if (letter->kind == OFFER || letter->kind == ADVERT || letter->kind == CALL)
        text_put(to, " from desk %u", letter->from);
    text_put(to, " to desk %u", letter->desk);
    if (letter->kind == OFFER || letter->kind == CALL || letter->kind == ENDED)
        text_put(to, ", count %u", letter->value);
}

void put_mail(struct text *to, const struct names *names, const struct sim_rig *rig)
{
    enum { MOST = 8 };
    if (rig->letters == 0)
        text_put(to, "the mail is empty");
    for (uint32_t i = 0; i < rig->letters && i < MOST; i++) {
        text_put(to, "%s%u ", i == 0 ? "" : "; ", i + 1);
        put_letter(to, names, &rig->mail[i]);
    }
    if (rig->letters > MOST)
        text_put(to, "; and %u more", rig->letters - MOST);
}
