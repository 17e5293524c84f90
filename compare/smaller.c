/* A smaller catalogue and fewer titles for a trial. */
#include "tried.h"
#include "words.h"

#include <string.h>

/* ---- Catalogues that stay right; 0 where there is nothing to take away */

static int drop_segment(tables *t, uint32_t track)
{
    uint32_t *record = t->tracks + MCS_TRACK_WORDS * track, last;
    if (track >= track_count(t) || record[SEGMENT_COUNT] == 0) {
        return 0;
    }
    last = record[FIRST_SEGMENT] + record[SEGMENT_COUNT] - 1u;
    if (last >= t->length[SEGMENTS]) {
        return 0;
    }
    memmove(t->segments + last, t->segments + last + 1, sizeof(uint32_t) * (t->length[SEGMENTS] - last - 1u));
    t->length[SEGMENTS]--;
    record[SEGMENT_COUNT]--;
    for (uint32_t k = track + 1; k < track_count(t); k++) {
        t->tracks[MCS_TRACK_WORDS * k + FIRST_SEGMENT]--;
    }
    return 1;
}

/* The track's entry of the office's titles, where there is one. */
static void drop_entry(tables *t, uint32_t track)
{
    uint32_t at = MCS_RENAME_WORDS * track, behind = at + MCS_RENAME_WORDS;
    if (behind <= t->length[RENAMES]) {
        memmove(t->renames + at, t->renames + behind, sizeof(uint32_t) * (t->length[RENAMES] - behind));
        t->length[RENAMES] -= MCS_RENAME_WORDS;
    }
}

static int drop_track(tables *t, uint32_t track)
{
    uint32_t count = track_count(t);
    if (track >= count) {
        return 0;
    }
    while (drop_segment(t, track)) {
    }
    memmove(t->tracks + MCS_TRACK_WORDS * track, t->tracks + MCS_TRACK_WORDS * (track + 1),
            sizeof(uint32_t) * MCS_TRACK_WORDS * (count - track - 1u));
    t->length[TRACKS] -= MCS_TRACK_WORDS;
    drop_entry(t, track);
    for (uint32_t g = 0; g < group_count(t); g++) {
        uint32_t *record = t->groups + MCS_GROUP_WORDS * g;
        if (record[FIRST_TRACK] > track) {
            record[FIRST_TRACK]--;
        } else if (track - record[FIRST_TRACK] < record[TRACK_COUNT]) {
            record[TRACK_COUNT]--;
        }
    }
    return 1;
}

static int drop_group(tables *t, uint32_t group)
{
    uint32_t count = group_count(t), parent;
    if (group >= count) {
        return 0;
    }
    while (group_word(t, group, TRACK_COUNT) > 0) {
        if (!drop_track(t, group_word(t, group, FIRST_TRACK))) {
            return 0;
        }
    }
    parent = group_word(t, group, PARENT);
    memmove(t->groups + MCS_GROUP_WORDS * group, t->groups + MCS_GROUP_WORDS * (group + 1),
            sizeof(uint32_t) * MCS_GROUP_WORDS * (count - group - 1u));
    t->length[GROUPS] -= MCS_GROUP_WORDS;
    /* Its children go to its parent. */
    for (uint32_t g = group; g < count - 1u; g++) {
        uint32_t *of = t->groups + MCS_GROUP_WORDS * g + PARENT;
        if (g == 0) {
            *of = 0;
        } else if (*of == group) {
            *of = group == 0 ? 0 : parent;
        } else if (*of > group) {
            (*of)--;
        }
    }
    return 1;
}

/* ---- Trials over them */

static int with_catalogue(trial *t, run *r, int altered)
{
    return altered && time_is_left() && memcmp(&tried.catalogue, &t->catalogue, sizeof t->catalogue) != 0 && holds(t, r);
}

static int with_entry(trial *t, run *r, uint32_t table, uint32_t at, uint32_t to)
{
    try_copy(t);
    set_table_entry(&tried.catalogue, table, at, to);
    return with_catalogue(t, r, 1);
}

/* Less by ever smaller amounts. */
static int with_less(trial *t, run *r, uint32_t table, uint32_t at)
{
    int changed = 0;
    for (uint32_t by = table_entry(&t->catalogue, table, at) / 2u; by > 0;) {
        uint32_t now = table_entry(&t->catalogue, table, at);
        if (by <= now && with_entry(t, r, table, at, now - by)) {
            changed = 1;
        } else {
            by /= 2u;
        }
    }
    return changed;
}

static int smaller_track(trial *t, run *r, uint32_t track)
{
    uint32_t at = MCS_TRACK_WORDS * track;
    int changed = 0, dropped;
    do {
        try_copy(t);
        dropped = with_catalogue(t, r, drop_segment(&tried.catalogue, track));
        changed |= dropped;
    } while (dropped);
    changed |= with_entry(t, r, TRACKS, at + TITLE_LENGTH, 0);
    changed |= with_entry(t, r, TRACKS, at + TITLE_OFFSET, 0);
    changed |= with_entry(t, r, TRACKS, at + STAMP, 0);
    changed |= with_entry(t, r, TRACKS, at + DURATION, 0);
    changed |= with_less(t, r, TRACKS, at + DURATION);
    return changed;
}

/* Numbers above `number` become less by so much, in both services of every state that is set; and the groups that are
 * activated, and those and the tracks whose objects are written. */
static void renumber(uint32_t in, uint32_t number, uint32_t by)
{
    for (uint32_t k = 0; k < tried.count; k++) {
        step *s = &tried.steps[k];
        for (uint32_t service = 0; s->kind == SET_STATE && service < MCS_SERVICES; service++) {
            uint8_t *octets = s->octets + MCS_AT_SERVICE(service) + in;
            put_word(octets, word_at(octets) - (word_at(octets) > number ? by : 0));
        }
        if ((((s->kind == ACTIVATE || s->kind == GROUP_OBJECT_WRITE) && in == MCS_IN_GROUP) ||
             (s->kind == SEGMENTS_OBJECT_WRITE && in == MCS_IN_TRACK)) &&
            s->number > number) {
            s->number -= by;
        }
    }
}

static int without_group(trial *t, run *r, uint32_t group)
{
    uint32_t first = group_word(&t->catalogue, group, FIRST_TRACK), count = group_word(&t->catalogue, group, TRACK_COUNT);
    int dropped;
    try_copy(t);
    dropped = drop_group(&tried.catalogue, group);
    renumber(MCS_IN_GROUP, group, 1);
    if (count > 0) {
        renumber(MCS_IN_TRACK, first + count - 1u, count);
        renumber(MCS_IN_NEXT, first + count, count);
    }
    return with_catalogue(t, r, dropped);
}

static int without_track(trial *t, run *r, uint32_t track)
{
    int dropped;
    try_copy(t);
    dropped = drop_track(&tried.catalogue, track);
    renumber(MCS_IN_TRACK, track, 1);
    renumber(MCS_IN_NEXT, track + 1u, 1);
    return with_catalogue(t, r, dropped);
}

/* No track renamed, or one less; and parts and a text of the office that are shorter by ever smaller amounts. */
static int fewer_titles(trial *t, run *r)
{
    const uint32_t *office = &t->catalogue.length[OFFICE];
    int changed;
    try_copy(t);
    rename_nothing(&tried.catalogue);
    changed = with_catalogue(t, r, 1);
    for (uint32_t k = track_count(&t->catalogue); k-- > 0;) {
        uint32_t at = MCS_RENAME_WORDS * k;
        changed |= with_entry(t, r, RENAMES, at + RENAME_LENGTH, 0);
        changed |= with_entry(t, r, RENAMES, at + RENAME_OFFSET, 0);
        changed |= with_less(t, r, RENAMES, at + RENAME_LENGTH);
    }
    for (uint32_t by = *office / 2u; by > 0 && time_is_left();) {
        try_copy(t);
        tried.catalogue.length[OFFICE] -= by;
        if (by <= *office && with_catalogue(t, r, 1)) {
            changed = 1;
        } else {
            by /= 2u;
        }
    }
    return changed;
}

int smaller_catalogue(trial *t, run *r)
{
    int changed = fewer_titles(t, r);
    for (uint32_t table = 0; table < TABLES; table++) {
        try_copy(t);
        tried.catalogue.length[table] = 0;
        changed |= with_catalogue(t, r, 1);
    }
    for (uint32_t g = group_count(&t->catalogue); g-- > 0;) {
        changed |= without_group(t, r, g);
    }
    for (uint32_t k = track_count(&t->catalogue); k-- > 0;) {
        changed |= without_track(t, r, k);
    }
    for (uint32_t k = track_count(&t->catalogue); k-- > 0;) {
        changed |= smaller_track(t, r, k);
    }
    for (uint32_t g = group_count(&t->catalogue); g-- > 0;) {
        changed |= with_entry(t, r, GROUPS, MCS_GROUP_WORDS * g + PARENT, 0);
    }
    return changed;
}
